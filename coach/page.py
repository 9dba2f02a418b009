"""The picture as one HTML file with no outside parts: point at a bend, a straight or a position and read it."""
from picture import STYLE

PAGE_STYLE = """
  body { margin: 0 auto; max-width: 1160px; font: 14px sans-serif; color: #1f2430; background: #fff }
  h1 { font-size: 18px; margin: 12px } p { margin: 0 12px 8px }
  .laps { display: flex; flex-wrap: wrap } svg { max-width: 100%; height: auto; display: block }
  #reading { position: sticky; top: 0; background: #ffffffee; padding: 8px 12px; min-height: 1.3em;
    border-bottom: 1px solid #cfd4dc; font-weight: bold; z-index: 1 }
  .wide { overflow-x: auto } .wide svg { max-width: none }
  [tabindex]:focus { outline: 2px solid #1f2430 }
"""
SCRIPT = """
  const box = document.getElementById("reading"), first = box.textContent;
  const read = event => {
    const told = event.target.closest(".lap, .part, .field, .position");
    document.querySelectorAll(".on").forEach(other => other.classList.remove("on"));
    const title = told && told.querySelector("title");
    if (!title) { if (event.type === "click") box.textContent = first; return; }
    box.textContent = title.textContent;
    const row = told.dataset.row;
    if (row) document.querySelectorAll(`[data-row="${row}"]`).forEach(other => other.classList.add("on"));
  };
  for (const kind of ["mouseover", "click", "focusin"]) document.addEventListener(kind, read);
  document.querySelectorAll(".lap, .part, .field").forEach(part => part.setAttribute("tabindex", "0"));
"""


def page_of(drawn):
    laps = "\n".join(lap.svg() for lap in drawn.laps)
    strips = "\n".join(f'<div class="wide">{strip.svg()}</div>' for strip in drawn.strips)
    return f"""<!DOCTYPE html>
<html lang="en">
<head>
<meta charset="utf-8">
<meta name="viewport" content="width=device-width, initial-scale=1">
<meta name="description" content="{drawn.description}">
<title>{drawn.title}</title>
<style>{STYLE}{PAGE_STYLE}</style>
</head>
<body>
<h1>{drawn.title}</h1>
<div id="reading" role="status" aria-live="polite">Point at a lap's name, a bend, a straight or a position, and read it here.</div>
<div class="wide">{drawn.key.svg()}</div>
<div class="laps">
{laps}
</div>
{strips}
<script>{SCRIPT}</script>
</body>
</html>
"""
