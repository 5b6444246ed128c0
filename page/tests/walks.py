"""What a user does with the page, in Chromium. Each walk gives what is wrong, or nothing."""
import json

import browser

# How many points of the canvas aren't empty.
INK = """(() => {
    const canvas = $("canvas");
    const data = canvas.getContext("2d").getImageData(0, 0, canvas.width, canvas.height).data;
    let ink = 0;
    for (let at = 3; at < data.length; at += 4) ink += data[at] > 0;
    return ink;
})()"""
SPAN = "STATE.view.span[1] - STATE.view.span[0]"
STATUS = "$('status').textContent"
FOCUS = "document.activeElement.id || document.activeElement.tagName.toLowerCase()"


def zoomed(page):
    """The wheel zooms into what is drawn, and a double click shows the whole again."""
    x, y = page.evaluate("(() => { const box = $('canvas').getBoundingClientRect(); return [box.x + box.width / 2, box.y + 60]; })()")
    whole = page.evaluate(SPAN)
    page.call("Input.dispatchMouseEvent", type="mouseWheel", x=x, y=y, deltaX=0, deltaY=-700)
    page.wait(SPAN + " < %r * 0.9 || %r < 21" % (whole, whole))
    page.evaluate("new Promise((resolve) => setTimeout(resolve, 140))")
    page.settle()
    page.evaluate("STATE.view.whole()")
    return page.evaluate(SPAN) != whole and "the whole isn't shown again"


def keyboard(page):
    """All is reached by Tab, and the picture is read, moved and zoomed by keys."""
    page.open()
    reached = []
    for _ in range(24):
        page.key("Tab")
        reached.append(page.evaluate(FOCUS))
    wanted = ["share", "example", "board", "command", "summary", "textarea", "whole", "canvas", "csv", "answer"]
    at = 0
    for name in reached:
        at += at < len(wanted) and name == wanted[at]
    if at < len(wanted):
        return "Tab doesn't reach %s: %s" % (wanted[at], reached)
    page.evaluate("$('canvas').focus()")
    whole = page.evaluate(SPAN)
    page.key("ArrowRight")
    if page.evaluate("$('tip').hidden"):
        return "an arrow doesn't read the picture"
    page.key("+")
    if not page.evaluate(SPAN) < whole * 0.6:
        return "plus doesn't zoom"
    start = page.evaluate("STATE.view.span[0]")
    page.key("ArrowRight", shift=True)
    if not page.evaluate("STATE.view.span[0]") > start:
        return "Shift and an arrow don't move"
    page.key("Home")
    return page.evaluate(SPAN) != whole and "Home doesn't show the whole"


def typed(page):
    """A word that is typed is answered; a refused line is marked, with its cause, form and repair."""
    page.open()
    page.evaluate("(STATE.editor.mirror.focus(), STATE.editor.mirror.setCursor({ line: 7, ch: 5 }))")
    page.key("0")
    page.wait(STATUS + ".startsWith('Refused')")
    said = page.evaluate("document.querySelector('.said').textContent")
    for wanted in ("BadNumber", "bits K", "a leading zero", "bits 16"):
        if wanted not in said:
            return "what is said lacks %s: %s" % (wanted, said)
    if page.evaluate(STATUS) != "Refused at line 8: BadNumber.":
        return page.evaluate(STATUS)
    page.evaluate("STATE.editor.mirror.undo()")
    page.wait(STATUS + ".startsWith('Done')")
    return page.evaluate("!!document.querySelector('.refused')") and "the mark stays"


def errors(page):
    """A line that is answered `err` is marked."""
    page.open()
    page.evaluate("load('replay', EXAMPLES.find((it) => it.name === 'replay_done').job + '9000 read 1 9 1\\n')")
    page.settle()
    said = page.evaluate("[...document.querySelectorAll('.said')].map((it) => it.textContent).join()")
    return "ENODEV" not in said and "what is said is %r" % said


def tested(page):
    """Below a command that the board doesn't take stands the step of its test; a block that breaks a rule has its rules."""
    page.open()
    said = "[...document.querySelectorAll('.said')].map((it) => it.textContent).join()"
    for command, name in (("replay", "scan_with_overrun"), ("expand", "expand_lost_edges")):
        page.evaluate("load(%s, EXAMPLES.find((it) => it.name === %s).job.replace(/(cmd|expand)( .*?)count:(\\d+) /, '$1$2count:99 '))"
                      % (json.dumps(command), json.dumps(name)))
        page.settle()
        page.evaluate("STATE.editor.mirror.scrollTo(0, 99999)")
        page.wait(said + ".includes('step 3, invalid argument')", 3)
    page.evaluate("load('replay', EXAMPLES.find((it) => it.name === 'replay_done').job.replace(/^tick .*$/m, 'tick 7'))")
    page.settle()
    return "multiples of the tick" not in page.evaluate(said) and page.evaluate(said)


def linked(page):
    """A link holds the whole job."""
    page.open()
    job = "# ä\ncomedi 1\n"
    page.evaluate("load('test', %s)" % json.dumps(job))
    page.settle()
    address = page.evaluate("share().then(() => location.href)")
    page.open(address)
    has = page.evaluate("[$('command').value, STATE.editor.text]")
    return has != ["test", job] and "it holds %r" % has


def planned(page):
    """The planner writes a job, and says whether samples are lost."""
    page.open()
    page.evaluate("(globalThis.tested = new WebAssembly.Module(moduleCode()), $('planner').open = true)")
    said = []
    for visit in (20, 40):
        page.evaluate("($('plan-visit').value = %d, $('plan-visit').dispatchEvent(new Event('input')))" % visit)
        page.wait("STATE.planner.plan === null && /^No sample|^Samples/.test($('plan-verdict').textContent) && !%s.includes($('plan-verdict').textContent)" % json.dumps(said))
        page.settle()
        said.append(page.evaluate("$('plan-verdict').textContent"))
    if not said[0].startswith("No sample is lost") or not said[1].startswith("Samples are lost"):
        return str(said)
    kept = page.evaluate("STATE.view.shown.picture.runs[0].lost.count")
    if "overrun %d\n" % kept not in page.evaluate("answerText(tested, COMMANDS.indexOf('replay'), STATE.editor.text).text.slice(-400)"):
        return "the core says no overrun of %s" % kept
    for board in page.evaluate("STATE.planner.boards.map((it) => it.name)"):
        page.evaluate("($('plan-board').value = %s, STATE.planner.writeJob())" % json.dumps(board))
        page.settle()
        if not page.evaluate(STATUS).startswith("Done"):
            return board + ": " + page.evaluate(STATUS)
    return None


def stopped(page):
    """A long job is stopped, and the next one is answered."""
    page.open()
    job = ("comedi 1\\nboard b\\nsubdevice ai 1\\nbits 8\\nrange 0 255 0\\nsources now timer now count count\\ntick 1\\nscan 1 1000\\n"
           "convert 1 1\\nlist 1\\nscans 4000000\\nbuffer 4\\nsignals 10000000\\nsession\\n"
           + "expand 0 0 0 now:0 timer:1 now:0 count:1 count:1000000 0/0/ground\\n" * 2)
    page.evaluate("(load('expand', '%s'), 0)" % job)
    page.wait("!$('busy').hidden")
    page.evaluate("$('stop').click()")
    page.wait(STATUS + ".startsWith('Stopped')")
    page.evaluate("choose('replay_done')")
    page.settle()
    return not page.evaluate(STATUS).startswith("Done") and page.evaluate(STATUS)


def narrow(page):
    """Nothing lies beside a window of 400 pixels, and no button or choice is cut off."""
    page.open(width=400, height=900)
    page.evaluate("$('planner').open = true")
    width = page.evaluate("document.documentElement.scrollWidth")
    if width > 400:
        return "it is %d pixels wide" % width
    cut = page.evaluate("[...document.querySelectorAll('button, select, input, output')].filter((it) => it.offsetParent && "
                        "(it.getBoundingClientRect().right > 400 || it.scrollWidth > it.clientWidth + 1)).map((it) => it.id)")
    return cut and "cut off: %s" % cut


def readable(page):
    """Texts stand out from what is behind them, in light and in dark mode: 4.5 to 1, as the web's guidelines ask."""
    code = """(() => {
        const style = getComputedStyle(document.documentElement);
        const canvas = document.createElement("canvas");
        const pen = canvas.getContext("2d");
        const light = (name) => {
            pen.fillStyle = style.getPropertyValue("--" + name).trim();
            const parts = [1, 3, 5].map((at) => parseInt(pen.fillStyle.slice(at, at + 2), 16) / 255);
            const [r, g, b] = parts.map((it) => (it <= 0.03928 ? it / 12.92 : ((it + 0.055) / 1.055) ** 2.4));
            return 0.2126 * r + 0.7152 * g + 0.0722 * b;
        };
        const pairs = [["ink", "card"], ["dim", "card"], ["dim", "back"], ["bad", "bad-back"], ["ok", "ok-back"], ["mild", "mild-back"],
            ["ink", "bad-back"], ["ink", "mild-back"], ["word", "card"], ["heading", "card"], ["comment", "card"], ["bad", "card"], ["dim", "gutter"],
            ["ok", "bad-back"], ...[...Array(8).keys()].map((it) => ["lane-" + it, "card"])];
        const contrast = ([one, two]) => { const [a, b] = [light(one), light(two)].sort((x, y) => y - x); return (a + 0.05) / (b + 0.05); };
        return pairs.filter((pair) => contrast(pair) < 4.5).map((pair) => pair.join(" on ") + " " + contrast(pair).toFixed(1));
    })()"""
    for dark in (False, True):
        page.open(dark=dark)
        weak = page.evaluate(code)
        if weak:
            return "%s mode: %s" % ("dark" if dark else "light", weak)
    return None


def sorry(page):
    """A browser that can't take the core gets a sentence."""
    script = page.call("Page.addScriptToEvaluateOnNewDocument",
                       source="WebAssembly.Module = function () { throw new WebAssembly.CompileError('no 64-bit memories'); };")
    page.navigate(browser.ADDRESS)
    shown = page.evaluate("[$('sorry').offsetHeight > 0, $('sorry').innerText, document.querySelector('main').offsetHeight]")
    page.call("Page.removeScriptToEvaluateOnNewDocument", identifier=script["identifier"])
    return not (shown[0] and "64-bit memories" in shown[1] and shown[2] == 0) and str(shown)


WALKS = {
    "the keyboard walk": keyboard, "typing in the editor": typed, "a line that is answered err": errors,
    "a command that isn't taken": tested, "a link to a job": linked, "the planner": planned, "stopping a long job": stopped,
    "a window of 400 pixels": narrow, "the contrast of texts": readable, "a browser without 64-bit memories": sorry,
}
