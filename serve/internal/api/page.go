// The page's files, and what a browser may load for them. Outside the proof.

package api

import (
	"embed"
	"net/http"
	"path"
	"strings"
)

//go:embed page
var pageFiles embed.FS

// pagePolicy lets the page load its own files and call this gateway, and nothing else: no inline script, no other host, no frame.
const pagePolicy = "default-src 'none'; script-src 'self'; style-src 'self'; img-src 'self' data:; connect-src 'self'; base-uri 'none'; form-action 'none'; " +
	"frame-ancestors 'none'; require-trusted-types-for 'script'"

var pageTypes = map[string]string{".html": "text/html; charset=utf-8", ".js": "text/javascript; charset=utf-8", ".css": "text/css; charset=utf-8"}

// pageFile returns the file of the page that a path names.
func pageFile(urlPath string) (text []byte, kind string, is bool) {
	name := strings.TrimPrefix(urlPath, "/page/")
	switch {
	case urlPath == "/":
		name = "index.html"
	case name == urlPath || strings.Contains(name, "/") || name == "index.html":
		return nil, "", false
	}
	text, err := pageFiles.ReadFile("page/" + name)
	kind = pageTypes[path.Ext(name)]
	return text, kind, err == nil && kind != ""
}

// writePage writes a file of the page.
func writePage(w http.ResponseWriter, text []byte, kind string) {
	head := w.Header()
	head.Set("Content-Security-Policy", pagePolicy)
	head.Set("Content-Type", kind)
	head.Set("Referrer-Policy", "no-referrer")
	head.Set("Cross-Origin-Opener-Policy", "same-origin")
	w.Write(text)
}
