package exported

import (
	"fmt"
	"path/filepath"
	"strings"

	"syncthing-audit/ask"
	"syncthing-audit/audit"
	"syncthing-audit/finding"
	"syncthing-audit/regular"
	"syncthing-audit/rows"
)

// SumOf reads the answers that stand beside exported documents.
func SumOf(directory string) (*finding.Answer, error) {
	read, err := readExported(directory)
	if err != nil {
		return nil, err
	}
	replies := audit.NewReplies()
	for _, entry := range read.Documents {
		reply, err := replyTo(directory, entry)
		if err != nil {
			return nil, err
		}
		replies.Take(&rows.Piece{Folder: entry.Folder, Own: entry.Own}, reply)
	}
	read.Found.IsSum = true
	return read.Found, replies.AddTo(read.Found)
}

// mostOfReply is how many bytes the answer to a document has at most.
const mostOfReply = 1 << 30

// replyTo reads the answer to an exported document.
func replyTo(directory string, entry exportedDocument) (*ask.Reply, error) {
	path := filepath.Join(directory, strings.TrimSuffix(filepath.Base(entry.File), ".json")+".reply")
	text, _, err := regular.Read(path, mostOfReply)
	if err != nil {
		return nil, fmt.Errorf("refused: a document has no answer yet: %w", err)
	}
	var reply *ask.Reply
	sum, answers, _ := strings.Cut(string(text), "\n")
	if digits, _, _ := strings.Cut(sum, " "); digits == entry.Sum.String() {
		reply, err = ask.ReadReply(entry.Folder, answers)
	} else {
		err = fmt.Errorf("it doesn't begin with the SHA-256 of its document, as 'sha256sum < %s' writes it: it may be the answer to another one", filepath.Base(entry.File))
	}
	if err != nil {
		return nil, fmt.Errorf("refused: %s: %w", path, err)
	}
	return reply, nil
}
