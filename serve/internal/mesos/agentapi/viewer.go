// The page of a sandbox: its files, and their text as it grows. It is static; a browser asks for the files as any caller does. Outside the proof.

package agentapi

import (
	"embed"
	"net/http"
)

//go:embed viewer
var viewerFiles embed.FS

// viewerPolicy lets the page load its own files and call this agent, and nothing else.
const viewerPolicy = "default-src 'none'; script-src 'self'; style-src 'self'; img-src data:; connect-src 'self'; base-uri 'none'; form-action 'none'; " +
	"frame-ancestors 'none'; require-trusted-types-for 'script'"

// viewerFile returns an endpoint's answer that writes a file of the page.
func viewerFile(name, kind string) func(*Server, http.ResponseWriter, *http.Request) error {
	return func(_ *Server, w http.ResponseWriter, _ *http.Request) error {
		text, err := viewerFiles.ReadFile("viewer/" + name)
		if err != nil {
			return err
		}
		head := w.Header()
		head.Set("Content-Type", kind+"; charset=utf-8")
		head.Set("Content-Security-Policy", viewerPolicy)
		head.Set("Referrer-Policy", "no-referrer")
		_, err = w.Write(text)
		return err
	}
}
