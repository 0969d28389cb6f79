"""The page of `legacy review`: kinds of edits, edits by pages of some hundred, and a button that writes the plan."""
import html
import json
from typing import Any, Dict

PAGE = """<!doctype html>
<html lang="en">
<meta charset="utf-8">
<meta name="viewport" content="width=device-width, initial-scale=1">
<title>{title}</title>
<style nonce="{nonce}">
:root {{ color-scheme: light dark; --old: #b3261e; --new: #146c2e; --line: #8884; --soft: #8882; }}
@media (prefers-color-scheme: dark) {{ :root {{ --old: #ff8a80; --new: #7ddc93; }} }}
body {{ font: 15px/1.45 system-ui, sans-serif; margin: 0 auto; max-width: 76rem; padding: 1rem 1rem 5rem; }}
h1 {{ font-size: 1.5rem; margin: 0 0 .2rem; overflow-wrap: anywhere; }} h2 {{ font-size: 1.1rem; margin: 1.6rem 0 .4rem; }} p {{ margin: .2rem 0; }}
table {{ border-collapse: collapse; width: 100%; }}
th, td {{ text-align: left; padding: .2rem .8rem .2rem 0; border-bottom: 1px solid var(--line); font-weight: normal; }}
td.n, th.n {{ text-align: right; font-variant-numeric: tabular-nums; }} thead th {{ font-size: .85rem; opacity: .75; }}
button, select {{ font: inherit; padding: .1rem .6rem; }}
code, bdi {{ font-family: ui-monospace, monospace; white-space: pre-wrap; overflow-wrap: anywhere; }}
#edits {{ list-style: none; margin: 0; padding: 0; }}
#edits li {{ border-bottom: 1px solid var(--line); padding: .4rem 0; }}
#edits li.left .lines {{ opacity: .45; }}
label.place {{ display: block; font-size: .9rem; overflow-wrap: anywhere; cursor: pointer; }}
.lines {{ display: grid; grid-template-columns: max-content max-content 1fr; gap: 0 .8rem; padding-left: 1.6rem; }}
.lines .sign {{ font-family: ui-monospace, monospace; }}
del, ins {{ text-decoration: none; border-radius: 3px; padding: 0 .1em; font-family: ui-monospace, monospace; }}
del {{ background: color-mix(in srgb, var(--old) 25%, transparent); }} ins {{ background: color-mix(in srgb, var(--new) 25%, transparent); }}
.old {{ color: var(--old); }} .new {{ color: var(--new); }} .fault {{ padding-left: 1.6rem; color: var(--old); }}
nav {{ display: flex; gap: .6rem; align-items: center; flex-wrap: wrap; margin: .4rem 0; }}
footer {{ position: fixed; inset: auto 0 0 0; background: Canvas; border-top: 1px solid var(--line); padding: .6rem 1rem; }}
footer div {{ max-width: 76rem; margin: 0 auto; display: flex; gap: 1rem; align-items: center; flex-wrap: wrap; }}
@media (max-width: 40rem) {{ .lines {{ grid-template-columns: max-content 1fr; padding-left: 0; }} .lines bdi {{ grid-column: 2; }} }}
</style>
<main>
<h1>{title}</h1>
<p id="sum"></p>
<h2 id="kinds-title">Kinds</h2>
<table aria-labelledby="kinds-title">
<thead><tr><th scope="col">rule<th scope="col">bytes<th scope="col" class="n">edits<th scope="col" class="n">taken
<th scope="col">all of them</thead><tbody id="kinds"></tbody></table>
<h2>Edits</h2>
<nav aria-label="pages">
<label>show <select id="only"></select></label><button id="back">back</button><span id="where"></span><button id="next">next</button>
</nav>
<ol id="edits"></ol>
</main>
<footer><div><span id="count" role="status"></span><button id="write">write the plan</button><span id="said" role="status"></span></div></footer>
<script type="application/json" id="known" nonce="{nonce}">{known}</script>
<script nonce="{nonce}">
"use strict";
const known = JSON.parse(document.getElementById("known").textContent);
const taken = new Uint8Array(known.edits.length).fill(1), counts = known.kinds.map(it => it.count);
const SHOWN = 100, at = id => document.getElementById(id);
let only = -1, first = 0, listed = [], asked = 0;
function make(name, text, as) {{
  const it = document.createElement(name);
  if (text !== undefined) it.textContent = text;
  if (as) it.className = as;
  return it;
}}
const number = it => it.toLocaleString("en");
const bytes = it => it || "none";
const kindText = it => it.rule + (it.old || it.new ? `: ${{bytes(it.old)}} becomes ${{bytes(it.new)}}` : "");
function take(edit, is) {{
  if (taken[edit] === is) return;
  taken[edit] = is;
  counts[known.edits[edit]] += is ? 1 : -1;
}}
function count() {{
  const all = counts.reduce((one, other) => one + other, 0);
  at("count").textContent = `${{number(all)}} of ${{number(taken.length)}} taken`;
  known.kinds.forEach((_, kind) => {{ at("taken" + kind).textContent = number(counts[kind]); }});
  for (const box of document.querySelectorAll("#edits input")) {{
    box.checked = !!taken[box.value];
    box.closest("li").className = box.checked ? "" : "left";
  }}
}}
function takeAll(kind, is) {{
  known.edits.forEach((it, edit) => {{ if (it === kind) take(edit, is); }});
  count();
}}
function kinds() {{
  at("only").append(new Option("all edits", "-1"));
  known.kinds.forEach((it, kind) => {{
    const row = make("tr"), cell = make("td"), name = make("th", it.rule), code = make("td");
    name.scope = "row";
    if (it.old || it.new) code.append(make("code", bytes(it.old), "old"), " becomes ", make("code", bytes(it.new), "new"));
    for (const [text, is] of [["take", 1], ["leave", 0]]) {{
      const button = make("button", text);
      button.setAttribute("aria-label", `${{text}} all of ${{kindText(it)}}`);
      button.onclick = () => takeAll(kind, is);
      cell.append(button, " ");
    }}
    const left = make("td", "", "n");
    left.id = "taken" + kind;
    row.append(name, code, make("td", number(it.count), "n"), left, cell);
    at("kinds").append(row);
    at("only").append(new Option(kindText(it), kind));
  }});
}}
async function ask(what, numbers) {{
  const reply = await fetch(what, {{ method: "POST", headers: {{ "Content-Type": "application/json" }}, body: JSON.stringify(numbers) }});
  if (!reply.ok) throw new Error(`status ${{reply.status}}`);
  return reply.json();
}}
function line(sign, kind, bytesOf, before, name, text, after) {{
  const shown = make("bdi");
  shown.append(before, make(name, text), after);
  return [make("span", sign, "sign " + kind), make("code", bytes(bytesOf), kind), shown];
}}
function draw(it) {{
  const item = make("li"), label = make("label", undefined, "place"), box = make("input"), lines = make("div", undefined, "lines");
  box.type = "checkbox";
  box.value = it.number;
  box.onchange = () => {{ take(it.number, box.checked ? 1 : 0); count(); }};
  const kind = known.kinds[known.edits[it.number]];
  label.append(box, ` ${{it.path}}:${{it.line}}:${{it.character}}, ${{kind.rule}}`);
  lines.append(...line("\\u2212", "old", it.old, it.before, "del", it.was, it.after), ...line("+", "new", it.new, it.before, "ins", it.becomes, it.then));
  item.append(label, lines);
  if (it.fault) item.append(make("p", it.fault, "fault"));
  return item;
}}
async function show() {{
  const turn = ++asked, numbers = listed.slice(first, first + SHOWN);
  try {{
    const edits = numbers.length ? (await ask("edits", numbers)).edits : [];
    if (turn !== asked) return;
    at("edits").replaceChildren(...edits.map(draw));
  }} catch (fault) {{ at("said").textContent = `legacy review doesn't answer: ${{fault.message}}`; }}
  at("where").textContent = `${{number(Math.min(first + 1, listed.length))}} to ${{number(first + numbers.length)}} of ${{number(listed.length)}}`;
  at("back").disabled = !first;
  at("next").disabled = first + SHOWN >= listed.length;
  count();
}}
function choose() {{
  only = Number(at("only").value);
  listed = [];
  known.edits.forEach((it, edit) => {{ if (only < 0 || it === only) listed.push(edit); }});
  first = 0;
  return show();
}}
at("only").onchange = choose;
at("back").onclick = () => {{ first = Math.max(0, first - SHOWN); show(); }};
at("next").onclick = () => {{ first += SHOWN; show(); }};
at("write").onclick = async () => {{
  const left = [];
  taken.forEach((is, edit) => {{ if (!is) left.push(edit); }});
  at("write").disabled = true;
  try {{
    const reply = await ask("plan", left);
    at("said").textContent = reply.fault || `Written: ${{reply.said}}. This page can be closed.`;
    at("write").disabled = !reply.fault;
  }} catch (fault) {{
    at("said").textContent = `legacy review doesn't answer: ${{fault.message}}`;
    at("write").disabled = false;
  }}
}};
const files = `${{number(known.files)}} ${{known.files === 1 ? "file" : "files"}}`;
at("sum").textContent = `${{number(taken.length)}} edits of ${{files}}. What you leave isn't in the plan that you write.`;
kinds();
choose();
</script>
"""


def page(known: Dict[str, Any], nonce: str) -> str:
    """The page, with what it knows from the beginning and the nonce of its script."""
    # (in a script only JSON's own escapes count)
    said = json.dumps(known).replace("<", "\\u003c")
    return PAGE.format(title=html.escape(f"legacy review: {known['plan']}"), nonce=nonce, known=said)
