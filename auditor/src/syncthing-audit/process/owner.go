package process

import (
	"fmt"
	"os"
	"os/user"
	"strconv"
	"syscall"

	"syncthing-audit/shell"
)

// BecomeOwner has a program of root be the user whose homes these are, before it reads anything: what a home and its folders say is that user's
// word, and may name files of others.
func BecomeOwner(homes []string) error {
	if os.Geteuid() != 0 || len(homes) == 0 {
		return nil
	}
	var first *syscall.Stat_t
	for _, home := range homes {
		owner := ownerOf(home)
		switch {
		case owner == nil: // who reads the home says what is wrong with it
		case first == nil:
			first = owner
		case owner.Uid != first.Uid:
			return fmt.Errorf("refused: %s and %s are of two users, and root becomes the user whose home it reads: make a part of each", shell.Quoted(homes[0]),
				shell.Quoted(home))
		}
	}
	if first == nil || first.Uid == 0 {
		return nil
	}
	if err := become(first); err != nil {
		return fmt.Errorf("refused: root can't become user %d, whose home %s is: %w", first.Uid, shell.Quoted(homes[0]), err)
	}
	return nil
}

func ownerOf(path string) *syscall.Stat_t {
	about, err := os.Stat(path)
	if err != nil {
		return nil
	}
	said, _ := about.Sys().(*syscall.Stat_t)
	return said
}

// become gives up all that root may.
func become(owner *syscall.Stat_t) error {
	if err := syscall.Setgroups(groupsOf(owner)); err != nil {
		return err
	}
	if err := syscall.Setresgid(int(owner.Gid), int(owner.Gid), int(owner.Gid)); err != nil {
		return err
	}
	if err := syscall.Setresuid(int(owner.Uid), int(owner.Uid), int(owner.Uid)); err != nil {
		return err
	}
	if os.Geteuid() == 0 || os.Getuid() == 0 {
		return syscall.EPERM
	}
	return heedParentAgain()
}

// groupsOf gives the groups of a user, as far as the system knows these.
func groupsOf(owner *syscall.Stat_t) []int {
	groups := []int{int(owner.Gid)}
	known, err := user.LookupId(strconv.Itoa(int(owner.Uid)))
	if err != nil {
		return groups
	}
	ids, err := known.GroupIds()
	if err != nil {
		return groups
	}
	for _, id := range ids {
		if number, err := strconv.Atoi(id); err == nil {
			groups = append(groups, number)
		}
	}
	return groups
}
