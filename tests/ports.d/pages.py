"""Runs programs as WebAssembly in a browser: the sessions of examples/console and a landing, with each form of agc-console, and
what agc-study weaves and lists in examples/study.

    pages.py BROWSER FOLDER PROGRAM ..

The folder has the script `landing`, and in `console` what agc-console prints of it.
"""

import base64
import http.server
import json
import sys
import threading
from functools import partial
from pathlib import Path

import browser
from judge import TOP, finish, judge

# Runs a session: {module, args, files: {path: address}, commands: [text]}. Each command waits for the answer to the one before.
SESSION = """
(async ({ module, args, files, commands }) => {
  const bytes = async (address) => new Uint8Array(address ? await (await fetch(address)).arrayBuffer() : 0);
  const given = new Map();
  for (const [path, address] of Object.entries(files)) given.set(path, await bytes(address));
  const worker = new Worker("/ports/wasm/worker.js", { type: "module" });
  const said = ["", "", ""];
  let sent = 0;
  const answers = () => said[1].match(/^(at |stop |error:).*\\n/gm)?.length ?? 0;
  const go_on = () => {
    if (sent > commands.length || answers() < sent) return;
    worker.postMessage(sent < commands.length ? `${commands[sent]}\n` : null);
    sent++;
  };
  return new Promise((resolve) => {
    worker.onmessage = ({ data }) => {
      if ("text" in data) {
        said[data.file] += data.text;
        return go_on();
      }
      worker.terminate();
      const saved = [...(data.files ?? [])].filter(([path]) => !(path in files));
      resolve({ status: data.status ?? data.fault, out: said[1], err: said[2], saved: saved.map(([path]) => path) });
    };
    worker.onerror = (event) => resolve({ status: event.message });
    worker.postMessage({ module, files: given, args });
    go_on();
  });
})
"""
# Runs a program that reads no input: {module, args, files: {path: address}}. Standard output comes in base 64.
ONCE = """
(async ({ module, args, files }) => {
  const { runOnce } = await import("/ports/wasm/once.js");
  window.compiled ??= WebAssembly.compile(await (await fetch(module)).arrayBuffer());
  const given = new Map();
  for (const [path, address] of Object.entries(files)) given.set(path, new Uint8Array(await (await fetch(address)).arrayBuffer()));
  const { status, out, err } = await runOnce(await compiled, args, given);
  return { status, out: btoa([...out].map((byte) => String.fromCharCode(byte)).join("")), err };
})
"""
# The page is on this machine.
browser.FLAGS.append("--host-resolver-rules=MAP * ~NOTFOUND, EXCLUDE 127.0.0.1")
FORMS = ("agc-console", "agc-console-32", "agc-console-32-asyncify")


class Quiet(http.server.SimpleHTTPRequestHandler):
    """Serves files, and prints nothing."""

    extensions_map = {
        ".html": "text/html", ".wasm": "application/wasm", ".js": "text/javascript", "": "application/octet-stream",
    }

    def log_message(self, *_words):
        pass


def text(path):
    """Returns the text of a file, as a browser decodes it, or no text."""
    return path.read_bytes().decode(errors="replace") if path.exists() else ""


def session(top, folder):
    """Returns a session of examples/console for the page, and how it ends."""
    args = text(folder / "args").split()
    files = {"/dev/null": None}
    for word in args:
        path = (folder / word).resolve()
        if path.is_file() and path.is_relative_to(top):
            files[word] = f"/{path.relative_to(top)}"
    wanted = {"status": int(text(folder / "status") or 0), "out": text(folder / "stdout"), "err": text(folder / "stderr")}
    commands = text(folder / "commands").removesuffix("\n").split("\n")
    return {"args": args, "files": files, "commands": commands}, wanted


def serve(scratch):
    """Serves what the sessions take, and returns its address."""
    site = Path(scratch) / "site"
    site.mkdir()
    for each in ("examples", "ports", "prebuilt"):
        (site / each).symlink_to(Path(TOP) / each)
    (site / "landing").symlink_to(Path(scratch) / "landing")
    (site / "blank.html").write_text("<!doctype html><title>sessions</title>")
    server = http.server.ThreadingHTTPServer(("127.0.0.1", 0), partial(Quiet, directory=str(site)))
    threading.Thread(target=server.serve_forever, daemon=True).start()
    return f"http://127.0.0.1:{server.server_port}"


def landing(scratch):
    """Returns the landing for the page, and how it ends."""
    files = {"rope": "/examples/descent/rope", "landing": "/landing"}
    wanted = {"status": 0, "out": text(Path(scratch) / "console"), "err": ""}
    return {"args": list(files), "files": files, "commands": ["go to 16000000", "panel"]}, wanted


def try_page(page, address):
    """Runs agc-console on its page, with a rope that is chosen there."""
    page.load(f"{address}/ports/wasm/index.html")
    root = page.ask("DOM.getDocument")["root"]["nodeId"]
    node = page.ask("DOM.querySelector", nodeId=root, selector="#rope")["nodeId"]
    page.ask("DOM.setFileInputFiles", nodeId=node, files=[f"{TOP}/examples/keys/rope"])
    page.value("document.getElementById('start').click()")
    said = "document.getElementById('said').textContent"
    for command in ("go to 10", "key 4", "go 30"):
        page.value(f"""(async (line) => {{
          while (line.disabled) await new Promise((wake) => setTimeout(wake, 20));
          line.value = "{command}";
          document.getElementById("form").requestSubmit();
        }})(document.getElementById("line"))""")
    came = page.value(f"""(async () => {{
      for (let n = 0; n < 15000 && !/at 40/.test({said}); n++) await new Promise((wake) => setTimeout(wake, 20));
      return {said};
    }})()""")
    answers = [line for line in came.split("\n") if line and line not in ("go to 10", "key 4", "go 30")]
    judge("the page", ["at 10", "at 10", "write 30 010 44017", "at 40"], answers)


def words_of(top, folder):
    """Returns the words of an example, and the addresses of the files that it names."""
    args = text(folder / "args").split()
    paths = [word for word in args if (folder / word).is_file()]
    return args, {word: f"/{(folder / word).resolve().relative_to(top)}" for word in paths}


def try_study(page, address, top):
    """Weaves and lists the examples with agc-study, and weaves the landing."""
    study = top / "examples/study"
    names = [each.name for each in sorted(study.iterdir()) if text(each / "args").split()[:1] in (["weave"], ["list"])]
    # these name devices
    names = [each for each in names if each not in ("list-memory", "list-escape", "names-weave-device")]
    judge("examples that weave and list", True, len(names) > 20)
    for name in names:
        args, files = words_of(top, study / name)
        given = {"module": f"{address}/prebuilt/wasm32/agc-study.wasm", "args": ["agc-study", *args], "files": files}
        came = page.value(f"{ONCE}({json.dumps(given)})")
        out = (study / name / "stdout").read_bytes() if (study / name / "stdout").exists() else b""
        wanted = {"status": int(text(study / name / "status") or 0), "out": out, "err": text(study / name / "stderr")}
        judge(f"agc-study: {name}", wanted, {**came, "out": base64.b64decode(came["out"])})
    files = {"source": "/examples/descent/descent.agc"}
    given = {"module": "", "args": ["agc-study", "weave", "source", "--write-names", "names"], "files": files}
    came = page.value(f"{ONCE}({json.dumps(given)})")
    judge("agc-study: the landing", (0, (top / "examples/descent/rope").read_bytes()), (came["status"], base64.b64decode(came["out"])))


def try_console(page, address, top, scratch):
    """Runs all sessions with each form of agc-console."""
    folders = [each for each in sorted((top / "examples/console").iterdir()) if each.is_dir()]
    sessions = {each.name: session(top, each) for each in folders} | {"a landing": landing(scratch)}
    for form in FORMS:
        for name, (given, wanted) in sessions.items():
            came = page.value(f"{SESSION}({json.dumps({'module': f'{address}/prebuilt/wasm/{form}.wasm', **given})})")
            judge(f"{form}: {name}", wanted, {key: came.get(key) for key in wanted})
    try_page(page, address)


def main(program, scratch, *names):
    """Runs these programs."""
    address = serve(scratch)
    page = browser.Browser(program, scratch, 800, 600)
    page.load(f"{address}/blank.html")
    if "agc-study" in names:
        try_study(page, address, Path(TOP))
    if "agc-console" in names:
        try_console(page, address, Path(TOP), scratch)
    judge("errors of the pages", [], page.errors())
    page.close()
    finish()


if __name__ == "__main__":
    main(*sys.argv[1:])
