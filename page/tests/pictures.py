"""Pictures of the page beside stored ones."""
import base64
import os

PICTURES = os.path.join(os.path.dirname(os.path.dirname(os.path.abspath(__file__))), "pictures")
# Each picture: its name, the window's width and height, dark mode, and what is done before.
WANTED = (
    ("wide", 1280, 860, False, ""),
    ("middle", 800, 1240, False, "choose('fifo_overflow')"),
    ("narrow", 400, 1520, True, "choose('waveform_output')"),
)
# Two pictures are alike where few squares of this side differ by more than a step in a color, of 255.
SIDE, STEP, PART = 8, 24, 0.02
COMPARE = """(async (one, two) => {
    const pixelsOf = async (letters) => {
        const bytes = Uint8Array.from(atob(letters), (it) => it.charCodeAt(0));
        const image = await createImageBitmap(new Blob([bytes], { type: "image/png" }));
        const canvas = new OffscreenCanvas(Math.ceil(image.width / %(side)d), Math.ceil(image.height / %(side)d));
        const pen = canvas.getContext("2d");
        pen.imageSmoothingQuality = "high";
        pen.drawImage(image, 0, 0, canvas.width, canvas.height);
        return [image.width, image.height, pen.getImageData(0, 0, canvas.width, canvas.height).data];
    };
    const [[width, height, here], [otherWidth, otherHeight, there]] = [await pixelsOf(one), await pixelsOf(two)];
    if (width !== otherWidth || height !== otherHeight) return 1;
    let differ = 0;
    for (let at = 0; at < here.length; at += 4) {
        if ([0, 1, 2].some((color) => Math.abs(here[at + color] - there[at + color]) > %(step)d)) differ++;
    }
    return differ / (here.length / 4);
})(%(one)s, %(two)s)"""


def taken(page):
    """The pictures of the page now, by name."""
    made = {}
    for name, width, height, dark, code in WANTED:
        page.open(width=width, height=height, dark=dark)
        if code:
            page.evaluate(code)
            page.settle()
        # How long it took stands in the status, and differs each time.
        page.evaluate("document.getElementById('status').textContent = document.getElementById('status').textContent.replace(/, [\\d.]+ ms/, '')")
        page.evaluate("new Promise((resolve) => requestAnimationFrame(() => requestAnimationFrame(() => resolve(true))))")
        made[name] = page.picture()
    return made


def path_of(name):
    return os.path.join(PICTURES, name + ".png")


def differing(page, name, picture):
    """The part of a picture's squares that differ from the stored one."""
    with open(path_of(name), "rb") as file:
        stored = file.read()
    said = ['"%s"' % base64.b64encode(it).decode() for it in (picture, stored)]
    return page.evaluate(COMPARE % {"side": SIDE, "step": STEP, "one": said[0], "two": said[1]})
