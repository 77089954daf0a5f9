package page

// look is the page. Each word of it that others chose comes through html/template, which escapes it by where it stands.
const look = `<!DOCTYPE html>
<html lang="en">
<head>
<meta charset="utf-8">
<meta name="viewport" content="width=device-width, initial-scale=1">
<meta name="color-scheme" content="light dark">
<meta name="referrer" content="no-referrer">
<meta http-equiv="Content-Security-Policy" content="default-src 'none'; style-src 'unsafe-inline'">
<title>{{.Title}}</title>
<style>
:root { --back: #fff; --text: #1b1f24; --faint: #57606a; --line: #d0d7de; --box: #f6f8fa; --good: #116329; --part: #7d4e00; --bad: #b3261e; --none: #6e3fb0; }
@media (prefers-color-scheme: dark) {
  :root { --back: #0f1318; --text: #e6edf3; --faint: #9aa5b1; --line: #39424d; --box: #171d25; --good: #5bd17a; --part: #e3b341; --bad: #ff8a80; --none: #c7a6ff; }
}
* { box-sizing: border-box; }
body { margin: 0 auto; padding: 1rem; max-width: 76rem; background: var(--back); color: var(--text); font: 1rem/1.5 system-ui, sans-serif; overflow-wrap: anywhere; }
h1 { font-size: 1.5rem; line-height: 1.25; margin: 0.5rem 0; }
h2 { font-size: 1.2rem; margin: 2rem 0 0.5rem; padding-bottom: 0.2rem; border-bottom: 1px solid var(--line); }
h3 { font-size: 1rem; margin: 1rem 0 0.25rem; }
p { margin: 0.4rem 0; }
.faint { color: var(--faint); }
.small { font-size: 0.875rem; }
.hidden { position: absolute; width: 1px; height: 1px; overflow: hidden; clip-path: inset(50%); white-space: nowrap; }
.good { color: var(--good); } .part { color: var(--part); } .bad { color: var(--bad); } .none { color: var(--none); } .no { color: var(--faint); }
.sign { display: inline-block; min-width: 1.1em; font-weight: 700; }
.verdict { font-size: 1.15rem; font-weight: 600; }
table { width: 100%; table-layout: fixed; border-collapse: collapse; margin: 0.5rem 0; }
th, td { text-align: left; vertical-align: top; padding: 0.5rem 0.6rem; border: 1px solid var(--line); }
thead th, tbody th { background: var(--box); }
td p, th p { margin: 0; font-weight: 400; }
.days { display: flex; flex-wrap: wrap; gap: 3px; list-style: none; margin: 0.5rem 0; padding: 0; }
.days li { width: 1.75rem; height: 2.6rem; border: 1px solid currentColor; border-radius: 3px; text-align: center; font-weight: 700; line-height: 1.35; }
.days li span.date { display: block; font-size: 0.7rem; font-weight: 400; color: var(--faint); }
.days li.no { border-style: dashed; }
.month { width: 100%; font-size: 0.8rem; color: var(--faint); }
ul.plain { list-style: none; padding: 0; margin: 0.3rem 0; }
.key { display: flex; flex-wrap: wrap; gap: 0 1.2rem; list-style: none; padding: 0; margin: 0.3rem 0; }
.block { border: 1px solid var(--line); border-radius: 6px; background: var(--box); padding: 0.5rem 0.75rem; margin: 0.6rem 0; }
.block h3 { margin: 0 0 0.25rem; }
.block p { margin: 0.1rem 0; }
.d2 { padding-left: 1.25rem; } .d3 { padding-left: 2.5rem; }
@media (max-width: 40rem) {
  table, tbody, tr, th, td { display: block; width: auto; }
  thead { position: absolute; width: 1px; height: 1px; overflow: hidden; clip-path: inset(50%); }
  table { border: 0; }
  tbody th { width: auto; border-width: 1px; }
  td { border-top: 0; }
  td::before { content: attr(data-device); display: block; font-weight: 600; }
  td[data-read]::after { content: attr(data-read); display: block; color: var(--faint); font-size: 0.875rem; }
  tr { margin-bottom: 0.75rem; }
}
@media print {
  :root { font-size: 10pt; --back: #fff; --text: #000; --faint: #444; --line: #999; --box: #fff; --good: #000; --part: #000; --bad: #000; --none: #000; }
  body { max-width: none; padding: 0; }
  .block, tr, .days li { break-inside: avoid; }
  h2, h3 { break-after: avoid; }
}
</style>
</head>
<body>
<header>
<h1>{{.Title}}</h1>
<p class="verdict {{.Kind}}"><span class="sign" aria-hidden="true">{{.Sign}}</span> {{.Words}}</p>
<p class="faint small">{{.When}}</p>
{{range .Warnings}}<p class="bad"><span class="sign" aria-hidden="true">!</span> {{.}}</p>
{{end}}</header>
<main>
{{range $answer := .Answers}}<section>
<h2>Devices and folders{{with .Audit}}: {{.}}{{end}}</h2>
{{if not .Seen}}<p>There is no answer yet.</p>
{{else}}{{with .Stale}}<p class="bad"><span class="sign" aria-hidden="true">!</span> {{.}}</p>
{{end}}<table role="table">
<thead role="rowgroup"><tr role="row"><th scope="col" role="columnheader">Folder</th>{{range .Columns}}<th scope="col" role="columnheader">{{.Called}}{{with .Read}}<p class="faint small">{{.}}</p>{{end}}</th>{{end}}</tr></thead>
<tbody role="rowgroup">
{{range .Rows}}<tr role="row">
<th scope="row" role="rowheader">{{.Called}}<p class="{{.Kind}}"><span class="sign" aria-hidden="true">{{.Sign}}</span> {{.Words}}</p><p class="faint small">{{.Size}}</p></th>
{{range .Cells}}<td role="cell" data-device="{{.Device}}"{{with .Read}} data-read="{{.}}"{{end}}><p class="{{.Kind}}"><span class="sign" aria-hidden="true">{{.Sign}}</span> {{.Words}}</p>{{range .More}}<p class="faint small">{{.}}</p>{{end}}</td>
{{end}}</tr>
{{end}}</tbody>
</table>
{{end}}{{with .LeftOut}}<h3>Left out</h3>
<ul>{{range .}}<li>{{.What}}: {{.Why}}</li>{{end}}</ul>
{{end}}</section>
{{end}}{{range .Answers}}<section>
<h2>What was found{{with .Audit}}: {{.}}{{end}}</h2>
{{range .Blocks}}{{if .Lines}}<article class="block"><h3>{{.Head}}</h3>{{range .Lines}}<p class="d{{.Depth}}">{{.Text}}</p>{{end}}</article>{{else}}<p>{{.Head}}</p>{{end}}
{{end}}</section>
{{end}}{{if .Months}}<section>
<h2>Nights</h2>
<ul class="key small">{{range .Signs}}<li class="{{.Kind}}"><span class="sign" aria-hidden="true">{{.Sign}}</span> {{.Words}}</li>{{end}}</ul>
{{range .Months}}<h3>{{.Called}}</h3>
<ol class="days">{{range .Days}}<li class="{{.Kind}}" title="{{.Title}}"><span aria-hidden="true">{{.Sign}}<span class="date">{{.Number}}</span></span><span class="hidden">{{.Title}}</span></li>{{end}}</ol>
{{end}}{{with .Loud}}<h3>Nights that weren't all in step</h3>
<ul class="plain small">{{range .}}<li class="{{.Kind}}"><span class="sign" aria-hidden="true">{{.Sign}}</span> {{.Title}}</li>{{end}}</ul>
{{end}}</section>
{{end}}</main>
<footer class="faint small"><p>{{.Made}}</p></footer>
</body>
</html>
`
