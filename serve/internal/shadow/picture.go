// A report as a picture. Outside the proof.

package shadow

import (
	"bytes"
	"encoding/xml"
	"fmt"
)

const (
	pictureWidth, barLeft, barWidth = 860, 150, 300
	pictureHead, rowHeight          = 84, 58
	// The number of letters of a reason that fit into a line; there are two lines.
	lineLetters = 62
)

const pictureStyle = `
text{font:13px system-ui,-apple-system,"Segoe UI",Helvetica,Arial,sans-serif;fill:#24292f}
.page{fill:#ffffff}.soft{fill:#57606a}.head{font-weight:600;font-size:15px}.small{font-size:11px}.end{text-anchor:end}
.mesos{fill:#8b949e}.same{fill:#9ec1ee}.fair{fill:#2563b8}
@media (prefers-color-scheme:dark){
text{fill:#e6edf3}.page{fill:#0d1117}.soft{fill:#9aa4af}.mesos{fill:#768390}.same{fill:#35588a}.fair{fill:#6aa8f5}}
`

// picture returns the report as SVG: three bars for each role, and why they differ.
func (r *Report) picture() []byte {
	var b bytes.Buffer
	text := func(x, y int, class, words string) {
		fmt.Fprintf(&b, `<text x="%d" y="%d" class="%s">`, x, y, class)
		xml.EscapeText(&b, []byte(words))
		b.WriteString("</text>\n")
	}
	height := pictureHead + rowHeight*len(r.Roles) + 8
	fmt.Fprintf(&b, "<svg xmlns=\"http://www.w3.org/2000/svg\" viewBox=\"0 0 %d %d\" role=\"img\">\n<style>%s</style>\n", pictureWidth, height, pictureStyle)
	b.WriteString("<rect class=\"page\" width=\"100%\" height=\"100%\" rx=\"8\"/>\n")
	text(20, 28, "head", fmt.Sprintf("Mesos %s: %d agents, %d tasks", r.Version, r.Agents, r.Tasks))
	for k, legend := range []struct{ class, words string }{{"mesos", "in Mesos"}, {"same", "the same demand"}, {"fair", "the fair part, if all want more"}} {
		x := barLeft + 150*k
		fmt.Fprintf(&b, `<rect class="%s" x="%d" y="46" width="10" height="10" rx="1"/>`+"\n", legend.class, x)
		text(x+16, 55, "soft small", legend.words)
	}
	greatest := 0.0
	for _, role := range r.Roles {
		for _, part := range []Part{role.Mesos, role.Same, role.Fair} {
			if part.Share > greatest {
				greatest = part.Share
			}
		}
	}
	for k, role := range r.Roles {
		y := pictureHead + rowHeight*k
		text(barLeft-12, y+15, "end", shorten(role.Role, 18))
		text(barLeft-12, y+31, "soft small end", fmt.Sprintf("weight %v", role.Weight))
		for line, bar := range []struct {
			class string
			part  Part
		}{{"mesos", role.Mesos}, {"same", role.Same}, {"fair", role.Fair}} {
			wide := 1.0
			if greatest > 0 && bar.part.Share > 0 {
				wide += bar.part.Share / greatest * (barWidth - 60)
			}
			top := y + 13*line
			fmt.Fprintf(&b, `<rect class="%s" x="%d" y="%d" width="%.1f" height="11" rx="1"/>`+"\n", bar.class, barLeft, top, wide)
			text(barLeft+int(wide)+6, top+10, "small", percent(bar.part.Share))
		}
		for line, reason := range role.Why {
			first, rest := cut(reason.Kind+": "+reason.Text, lineLetters)
			text(barLeft+barWidth+10, y+12+30*line, "small", first)
			if rest != "" && line == 0 && len(role.Why) == 1 {
				text(barLeft+barWidth+10, y+27, "small", shorten(rest, lineLetters))
			}
		}
	}
	b.WriteString("</svg>\n")
	return b.Bytes()
}

// cut cuts a text at a blank into a line of at most this many letters, and the rest.
func cut(text string, letters int) (line, rest string) {
	if len(text) <= letters {
		return text, ""
	}
	end := letters
	for k := letters; k > 0; k-- {
		if text[k] == ' ' {
			return text[:k], text[k+1:]
		}
	}
	return text[:end], text[end:]
}

func shorten(text string, letters int) string {
	if len(text) > letters {
		return text[:letters-2] + ".."
	}
	return text
}
