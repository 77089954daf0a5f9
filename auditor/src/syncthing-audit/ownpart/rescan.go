package ownpart

import (
	"fmt"

	"github.com/syncthing/syncthing/lib/config"
	"syncthing-audit/commandline"
	"syncthing-audit/device"
	"syncthing-audit/inputs"
	"syncthing-audit/rest"
	"syncthing-audit/shell"
)

// rescan has the folders of a home that are asked for scanned, or all.
func rescan(asked commandline.Options) error {
	about, err := device.ReadConfig(asked.Homes[0], asked.Maps[0]...)
	if err != nil {
		return err
	}
	if err := checkScannable(about, asked); err != nil {
		return err
	}
	for _, folder := range inputs.Chosen(about, asked.Folders) {
		if err := (rest.Syncthing{Home: asked.Homes[0], Data: asked.Data[0], GUI: about.GUI}).Scan(folder.ID, folder.Label); err != nil {
			return fmt.Errorf("refused: %s: %w", asked.Homes[0], err)
		}
	}
	return nil
}

// checkScannable says whether no Syncthing runs that could scan, and which folder is paused, before any of them is scanned: Syncthing scans none such.
func checkScannable(about config.Configuration, asked commandline.Options) error {
	if err := device.CheckRuns(asked.Homes[0], asked.Data[0]); err != nil {
		return fmt.Errorf("%w. So nothing is scanned there: start it, or audit without --rescan", err)
	}
	for _, folder := range inputs.Chosen(about, asked.Folders) {
		if folder.Paused {
			return fmt.Errorf("refused: %s: folder %s is paused there, and Syncthing doesn't scan it: resume it on Syncthing's page, audit it without "+
				"--rescan, or choose other folders by --folder", asked.Homes[0], shell.Folder(folder.ID, folder.Label))
		}
	}
	return nil
}
