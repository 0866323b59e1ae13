// The page of a sandbox: lists a folder, or shows the end of a file as it grows. Outside the proof.
const $ = id => document.getElementById(id);
const chunk = 60000, kept = 1 << 20; // bytes that are read at once, and characters that are shown
let visit = 0;

// Makes characters visible that would hide something; line feeds and tabs stay.
const visible = text => text.replace(/[^\P{C}\n\t]|[\u2028\u2029]/gu, c => "\\u{" + c.codePointAt(0).toString(16) + "}");
const pause = ms => new Promise(done => setTimeout(done, ms));
const size = n => n < 1024 ? `${n} B` : n < 1 << 20 ? `${(n / 1024).toFixed(1)} KiB` : `${(n / 1048576).toFixed(1)} MiB`;

async function ask(call, query) {
  const answer = await fetch(`/files/${call}?${new URLSearchParams(query)}`, {cache: "no-store"});
  if (!answer.ok) { const error = new Error((await answer.text()).trim().slice(0, 300)); error.status = answer.status; throw error; }
  return answer.json();
}
function problem(text) { $("problem").hidden = !text; if ($("problem").textContent !== text) $("problem").textContent = text; }
function link(path, text) {
  const a = document.createElement("a");
  a.href = "#" + encodeURI(path).replaceAll("#", "%23").replaceAll("?", "%3F");
  a.textContent = visible(text);
  return a;
}
// The path as links. What is above `latest` is no folder of the sandbox.
function drawPath(path) {
  const parts = path.split("/"), root = Math.max(1, parts.indexOf("latest") + 1) || 1;
  $("path").replaceChildren();
  parts.forEach((part, k) => {
    if (!part) return;
    $("path").append(" / ", k + 1 >= root && k + 1 < parts.length ? link(parts.slice(0, k + 1).join("/") + "/", part) : visible(part));
  });
  document.title = visible(parts.filter(p => p).slice(-1)[0] || "Sandbox") + " · Sandbox";
}
function drawFolder(path, files) {
  $("file").hidden = true;
  $("files").hidden = false;
  $("files").tBodies[0].replaceChildren(...files.map(f => {
    const tr = document.createElement("tr"), name = f.path.split("/").pop(), isFolder = f.mode[0] === "d";
    const cell = (content, as = "td") => { const e = document.createElement(as); e.append(content); tr.append(e); return e; };
    cell(link(path.replace(/\/$/, "") + "/" + name + (isFolder ? "/" : ""), name + (isFolder ? "/" : "")), "th").scope = "row";
    cell(isFolder ? "" : size(f.size)).className = "n";
    cell(new Date(1000 * f.mtime).toLocaleString("en-GB", {timeZoneName: "short"}));
    cell(f.mode);
    cell(`${f.uid} ${f.gid}`);
    return tr;
  }));
}
function append(text) {
  const pre = $("text"), shown = pre.textContent + visible(text);
  pre.textContent = shown.length > kept ? shown.slice(shown.indexOf("\n", shown.length - kept) + 1) : shown;
  if ($("follow").checked) pre.scrollTop = pre.scrollHeight;
}
// Shows a file until another path is shown. Reports whether the path is a folder's.
async function follow(path, mine) {
  $("files").hidden = true;
  $("file").hidden = false;
  $("text").textContent = "";
  for (let at = -1; mine === visit; await pause(1000)) {
    try {
      const end = (await ask("read", {path, offset: -1})).offset;
      if (mine !== visit) return false;
      if (at < 0) { at = Math.max(0, end - chunk); if (at) append(`(the last ${size(end - at)})\n`); }
      if (end < at) { at = 0; append("\n(the file begins again)\n"); }
      while (at < end && mine === visit) {
        const length = Math.min(chunk, end - at), {data} = await ask("read", {path, offset: at, length});
        if (mine !== visit) return false;
        append(data);
        at += length;
      }
      $("size").textContent = size(end);
      problem("");
    } catch (error) {
      if (mine !== visit) return false;
      problem(error.status ? error.message : "The agent does not answer. This page asks again by itself.");
      if (error.status === 400) return true;
      if (error.status === 404) return false;
    }
  }
  return false;
}
// A path that ends with a slash is a folder's, and another one a file's, unless the agent says that it is a folder.
async function show() {
  const mine = ++visit;
  let path = location.hash.slice(1);
  try { path = decodeURIComponent(path); } catch { /* it is not encoded */ }
  drawPath(path);
  problem("");
  if (!path.endsWith("/") && !await follow(path, mine)) return;
  try {
    const files = await ask("browse", {path});
    if (mine === visit) drawFolder(path, files);
  } catch (error) {
    if (mine !== visit) return;
    problem(error.status ? error.message : "The agent does not answer.");
    $("files").hidden = $("file").hidden = true;
  }
}
addEventListener("hashchange", show);
show();
