package places

import (
	"context"
	"os/exec"
	"strings"
	"time"
)

// secondsOfAsking is how long ssh may take to tell its configuration: it may run programs for that.
const secondsOfAsking = 5

// optionsOfSSH gives the options that have ssh give up on a machine which is silent. Words of a command line go before
// ~/.ssh/config, so what is set there is asked for first, and left alone. A password or a new host's key is asked for as ever.
func optionsOfSSH(host string) []string {
	limited, end := context.WithTimeout(context.Background(), secondsOfAsking*time.Second)
	defer end()
	told, err := exec.CommandContext(limited, "ssh", "-G", host).Output()
	if err != nil {
		told = nil
	}
	return missingOptions(string(told))
}

// missingOptions gives the options that a configuration, as 'ssh -G' tells it, doesn't set.
func missingOptions(told string) []string {
	isSet := map[string]bool{}
	for _, line := range strings.Split(strings.ToLower(told), "\n") {
		name, value, _ := strings.Cut(strings.TrimSpace(line), " ")
		isSet[name] = value != "" && value != "none" && value != "0"
	}
	options := []string{}
	if !isSet["connecttimeout"] {
		options = append(options, "-o", "ConnectTimeout=20")
	}
	if !isSet["serveraliveinterval"] {
		options = append(options, "-o", "ServerAliveInterval=15", "-o", "ServerAliveCountMax=4")
	}
	return options
}
