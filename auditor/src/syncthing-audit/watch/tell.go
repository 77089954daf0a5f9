package watch

import (
	"fmt"
	"io"
	"mime/quotedprintable"
	"os"
	"os/exec"
	"strings"
	"syscall"
	"time"
	"unicode"

	"syncthing-audit/outside"
)

// Tell tells a text to whoever is to know of it: by mail, and by the command for that. Nothing of it is raw, whoever wrote it. Each is tried; the
// errors are of those that failed.
func (c *Config) Tell(subject, text string, log io.Writer) []error {
	subject, errs := outside.Escaped(subject), []error{}
	for _, address := range c.Mail {
		if err := mail(address.To, subject, text, log); err != nil {
			errs = append(errs, fmt.Errorf("it can't be mailed: %w", err))
		}
	}
	for _, command := range c.Notify {
		if err := runShell(command.Command, text, log, "SUBJECT="+subject); err != nil {
			errs = append(errs, fmt.Errorf("<notify>: %w", err))
		}
	}
	return errs
}

// PingAll tells whoever waits for it that an audit was made.
func (c *Config) PingAll(log io.Writer) []error {
	errs := []error{}
	for _, command := range c.Ping {
		if err := runShell(command.Command, "", log); err != nil {
			errs = append(errs, fmt.Errorf("<ping>: %w", err))
		}
	}
	return errs
}

// runShell runs a command with a text on its input.
func runShell(words, text string, log io.Writer, environment ...string) error {
	command := exec.Command("sh", "-c", words)
	command.Stdin, command.Stdout, command.Stderr = strings.NewReader(text), log, log
	command.Env = append(os.Environ(), environment...)
	return runInTime(command)
}

// longestTelling is how long a command may take. One that hangs would keep the rest from being told, and the next night from beginning.
var longestTelling = 10 * time.Minute

// runInTime runs a command, and ends it with its children once it has taken too long. What escapes that isn't waited for.
func runInTime(command *exec.Cmd) error {
	command.SysProcAttr = &syscall.SysProcAttr{Setpgid: true}
	if err := command.Start(); err != nil {
		return err
	}
	ended := make(chan error, 1)
	go func() { ended <- command.Wait() }()
	select {
	case err := <-ended:
		return err
	case <-time.After(longestTelling):
		_ = syscall.Kill(-command.Process.Pid, syscall.SIGKILL)
		return fmt.Errorf("it wasn't done in %v, and was ended", longestTelling)
	}
}

// mail mails a text by sendmail. With -odi the mail is delivered when sendmail ends: what went on in the background, systemd would kill with the service.
func mail(to, subject, text string, log io.Writer) error {
	host, err := os.Hostname()
	if err != nil {
		return err
	}
	path, err := sendmail()
	if err != nil {
		return err
	}
	command := exec.Command(path, "-i", "-odi", "-t")
	command.Stdin = strings.NewReader(fmt.Sprintf("To: %s\nSubject: syncthing-audit on %s: %s\nMIME-Version: 1.0\nContent-Type: text/plain; charset=utf-8\n%s",
		to, host, subject, body(text)))
	command.Stdout, command.Stderr = log, log
	return runInTime(command)
}

// longestLine is how many bytes a line of a mail may have, with some to spare: RFC 5322 has 998, and mail servers refuse more. A name may have more.
const longestLine = 900

// body gives a mail's text behind its last header: encoded, where a line is too long to be sent as it is. Without a word on that a mail is of ASCII alone.
func body(text string) string {
	isLong, isASCII := false, true
	for _, line := range strings.Split(text, "\n") {
		isLong = isLong || len(line) > longestLine
	}
	for _, letter := range text {
		isASCII = isASCII && letter <= unicode.MaxASCII
	}
	switch {
	case !isLong && isASCII:
		return "\n" + text
	case !isLong:
		return "Content-Transfer-Encoding: 8bit\n\n" + text
	}
	var whole strings.Builder
	whole.WriteString("Content-Transfer-Encoding: quoted-printable\n\n")
	writer := quotedprintable.NewWriter(&whole)
	_, _ = writer.Write([]byte(text)) // nothing fails in memory
	_ = writer.Close()
	return strings.ReplaceAll(whole.String(), "\r\n", "\n")
}

// sendmail finds the program, which may stand where only root looks for programs.
func sendmail() (string, error) {
	path, err := exec.LookPath("sendmail")
	for _, usual := range []string{"/usr/sbin/sendmail", "/usr/lib/sendmail"} {
		if err != nil {
			path, err = exec.LookPath(usual)
		}
	}
	return path, err
}
