"""The page in Firefox without a window: its answers to all examples, which it hands to a server of this process."""
import functools
import http.server
import json
import os
import shutil
import subprocess
import tempfile
import threading

PAGE = os.path.dirname(os.path.dirname(os.path.abspath(__file__)))
SCRIPT = """<script>
(async () => {
  const said = { begun: document.body.classList.contains("begun"), sorry: document.getElementById("sorry").innerText, answers: {} };
  if (said.begun) {
    const module = new WebAssembly.Module(moduleCode());
    for (const { name, command, job } of [...EXAMPLES, ...BOARDS]) said.answers[name] = answerText(module, COMMANDS.indexOf(command), job).text;
    while (STATE.done !== STATE.turn) await new Promise((resolve) => setTimeout(resolve, 20));
    said.status = document.getElementById("status").textContent;
  }
  await fetch("done", { method: "POST", body: JSON.stringify(said) });
})();
</script>
</body>"""


def firefox():
    """The command of Debian's Firefox, or None."""
    return shutil.which("firefox-esr") or shutil.which("firefox")


class Handler(http.server.SimpleHTTPRequestHandler):
    """Gives the page, with a script that tries it at its end, and takes what that found."""

    def do_GET(self):
        if self.path != "/":
            return super().do_GET()
        with open(PAGE + "/index.html", encoding="utf-8") as file:
            # The page itself may connect to nothing.
            text = file.read().replace("connect-src 'none'; ", "").replace("</body>", SCRIPT).encode()
        self.send_response(200)
        self.send_header("Content-Type", "text/html; charset=utf-8")
        self.end_headers()
        self.wfile.write(text)

    def do_POST(self):
        said = self.rfile.read(int(self.headers["Content-Length"]))
        self.send_response(204)
        self.end_headers()
        self.server.said = json.loads(said)
        self.server.is_done.set()

    def log_message(self, *_):
        pass


def tried(seconds=60):
    """What the page found in Firefox, or None where it found nothing in so many seconds."""
    handler = functools.partial(Handler, directory=PAGE)
    with http.server.ThreadingHTTPServer(("127.0.0.1", 0), handler) as server, tempfile.TemporaryDirectory() as room:
        server.said, server.is_done = None, threading.Event()
        threading.Thread(target=server.serve_forever, daemon=True).start()
        words = [firefox(), "--headless", "--no-remote", "--profile", room, "http://127.0.0.1:%d/" % server.server_address[1]]
        process = subprocess.Popen(words, stdin=subprocess.DEVNULL, stdout=subprocess.DEVNULL, stderr=subprocess.DEVNULL,
                                   env={**os.environ, "HOME": room})
        try:
            server.is_done.wait(seconds)
        finally:
            process.terminate()
            process.wait()
            server.shutdown()
        return server.said
