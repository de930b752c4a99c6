"""Headless browsers with one page each: Chromium by its debugging pipe, Firefox by Marionette."""
import base64
import json
import os
import shutil
import signal
import socket
import subprocess
import time
from collections.abc import Sequence
from pathlib import Path
from typing import Any, Optional

Point = tuple[float, float]


class Chromium:
    """A headless Chromium with one tab."""

    name = "chromium-headless-shell"

    def __init__(self, folder: Path, *words: str) -> None:
        read_end, self._out = os.pipe()
        self._in, write_end = os.pipe()
        line = [self.name, "--headless", "--no-sandbox", "--remote-debugging-pipe", "--no-first-run", "--mute-audio",
                "--disable-background-networking", f"--user-data-dir={folder / 'profile'}", "--window-size=1100,900",
                *words]

        def pipes() -> None:
            # the browser reads from 3 and writes to 4
            os.dup2(read_end, 103)
            os.dup2(write_end, 104)
            os.dup2(103, 3)
            os.dup2(104, 4)

        self._process = subprocess.Popen(line, stdin=subprocess.DEVNULL, stdout=subprocess.DEVNULL,
                                         stderr=subprocess.DEVNULL, preexec_fn=pipes, close_fds=False,
                                         start_new_session=True)
        os.close(read_end)
        os.close(write_end)
        self._rest = b""
        self._number = 0
        self.events: list[dict[str, Any]] = []
        target = self._ask("Target.createTarget", {"url": "about:blank"})["targetId"]
        self._session = self._ask("Target.attachToTarget", {"targetId": target, "flatten": True})["sessionId"]
        for domain in ("Network", "Page", "Runtime", "Log"):
            self.tab(f"{domain}.enable")

    def _message(self) -> dict[str, Any]:
        while b"\0" not in self._rest:
            part = os.read(self._in, 2**16)
            if not part:
                raise EOFError("the browser has ended")
            self._rest += part
        message, self._rest = self._rest.split(b"\0", 1)
        return json.loads(message)  # type: ignore[no-any-return]

    def _ask(self, method: str, params: Optional[dict[str, Any]] = None,
             session: Optional[str] = None) -> dict[str, Any]:
        self._number += 1
        asked: dict[str, Any] = {"id": self._number, "method": method, "params": params or {}}
        if session:
            asked["sessionId"] = session
        os.write(self._out, json.dumps(asked).encode() + b"\0")
        while True:
            message = self._message()
            if message.get("id") == self._number:
                if "error" in message:
                    raise RuntimeError(f"{method}: {message['error']}")
                return message["result"]  # type: ignore[no-any-return]
            self.events.append(message)

    def tab(self, method: str, params: Optional[dict[str, Any]] = None) -> dict[str, Any]:
        return self._ask(method, params, self._session)

    def go(self, place: str) -> None:
        self.tab("Page.navigate", {"url": place})

    def value(self, expression: str) -> Any:
        """The value of an expression in the page; a promise is waited for."""
        words = {"expression": expression, "awaitPromise": True, "returnByValue": True}
        answer = self.tab("Runtime.evaluate", words)
        if "exceptionDetails" in answer:
            raise RuntimeError(str(answer["exceptionDetails"])[:2000])
        return answer["result"].get("value")

    def pick(self, selector: str, *files: Path) -> None:
        """Picks files in a field."""
        root = self.tab("DOM.getDocument")["root"]["nodeId"]
        node = self.tab("DOM.querySelector", {"nodeId": root, "selector": selector})["nodeId"]
        self.tab("DOM.setFileInputFiles", {"files": [str(it) for it in files], "nodeId": node})

    def key(self, name: str, shift: bool = False) -> None:
        for kind in ("keyDown", "keyUp"):
            self.tab("Input.dispatchKeyEvent", {"type": kind, "key": name, "modifiers": 8 if shift else 0,
                                                **({"text": name} if len(name) == 1 and kind == "keyDown" else {})})

    def click(self, x: float, y: float) -> None:
        self.drag([(x, y)])

    def drag(self, places: Sequence[Point], shift: bool = False) -> None:
        """Presses the mouse at the first place, moves it over the others, and lets it go at the last."""
        kinds = ["mousePressed", *["mouseMoved"] * (len(places) - 1), "mouseReleased"]
        for kind, (x, y) in zip(kinds, [*places, places[-1]]):
            self.tab("Input.dispatchMouseEvent", {"type": kind, "x": x, "y": y, "button": "left", "buttons": 1,
                                                  "clickCount": 1, "modifiers": 8 if shift else 0})

    def wheel(self, place: Point, down: float) -> None:
        self.tab("Input.dispatchMouseEvent", {"type": "mouseWheel", "x": place[0], "y": place[1], "deltaX": 0,
                                              "deltaY": down})

    def touch(self, *fingers: Sequence[Point]) -> None:
        """Fingers go down at their first places, move over the others together, and go up."""
        self.tab("Emulation.setTouchEmulationEnabled", {"enabled": True, "maxTouchPoints": 5})
        for step, places in enumerate(zip(*fingers)):
            points = [{"x": x, "y": y, "id": number} for number, (x, y) in enumerate(places)]
            self.tab("Input.dispatchTouchEvent", {"type": "touchMove" if step else "touchStart", "touchPoints": points})
        self.tab("Input.dispatchTouchEvent", {"type": "touchEnd", "touchPoints": []})

    def drop(self, place: Point, *files: Path) -> None:
        """Drops files from outside on a place of the page."""
        data = {"items": [], "files": [str(it) for it in files], "dragOperationsMask": 1}
        for kind in ("dragEnter", "dragOver", "drop"):
            self.tab("Input.dispatchDragEvent", {"type": kind, "x": place[0], "y": place[1], "data": data})

    def screenshot(self) -> bytes:
        return base64.b64decode(self.tab("Page.captureScreenshot", {"format": "png"})["data"])

    def asked_for(self) -> list[str]:
        """Each address that the page asked for."""
        return [it["params"]["request"]["url"] for it in self.events if it["method"] == "Network.requestWillBeSent"]

    def faults(self) -> list[str]:
        """What the page threw, and nothing that a check provoked by evaluating."""
        return [json.dumps(it["params"])[:500] for it in self.events if it["method"] == "Runtime.exceptionThrown"]

    def close(self) -> None:
        os.killpg(self._process.pid, signal.SIGKILL)
        self._process.wait()
        os.close(self._out)
        os.close(self._in)


class Firefox:
    """A headless Firefox with one tab."""

    name = "firefox-esr"

    def __init__(self, folder: Path, *words: str) -> None:
        with socket.socket() as free:
            free.bind(("127.0.0.1", 0))
            port = free.getsockname()[1]
        profile = folder / "profile"
        profile.mkdir()
        (profile / "user.js").write_text(f'user_pref("marionette.port", {port});\n'
                                         'user_pref("datareporting.policy.dataSubmissionEnabled", false);\n'
                                         'user_pref("app.update.disabledForTesting", true);\n')
        self._process = subprocess.Popen([self.name, "--headless", "--marionette", "--no-remote", "--profile",
                                          str(profile), *words], env=dict(os.environ, HOME=str(folder)),
                                         stdin=subprocess.DEVNULL, stdout=subprocess.DEVNULL, stderr=subprocess.DEVNULL,
                                         start_new_session=True)
        self._socket = self._connected(port)
        self._rest = b""
        self._number = 0
        self._message()
        capabilities = {"capabilities": {"alwaysMatch": {"unhandledPromptBehavior": "ignore"}}}
        self._ask("WebDriver:NewSession", capabilities)
        self._ask("WebDriver:SetTimeouts", {"script": 120_000, "pageLoad": 60_000})
        self._ask("WebDriver:SetWindowRect", {"width": 1100, "height": 900})

    @staticmethod
    def _connected(port: int) -> socket.socket:
        for _ in range(600):
            try:
                return socket.create_connection(("127.0.0.1", port), timeout=180)
            except OSError:
                time.sleep(0.1)
        raise EOFError("Firefox does not start")

    def _message(self) -> Any:
        while b":" not in self._rest:
            self._rest += self._socket.recv(2**16)
        length, rest = self._rest.split(b":", 1)
        while len(rest) < int(length):
            part = self._socket.recv(2**20)
            if not part:
                raise EOFError("Firefox has ended")
            rest += part
        self._rest = rest[int(length):]
        return json.loads(rest[:int(length)])

    def _ask(self, method: str, params: dict[str, Any]) -> Any:
        self._number += 1
        data = json.dumps([0, self._number, method, params]).encode()
        self._socket.sendall(b"%d:%b" % (len(data), data))
        _, _, error, result = self._message()
        if error:
            raise RuntimeError(f"{method}: {error}")
        return result

    def go(self, place: str) -> None:
        self._ask("WebDriver:Navigate", {"url": place})

    def value(self, expression: str) -> Any:
        """The value of an expression in the page; a promise is waited for."""
        script = ("const done = arguments[arguments.length - 1]; "
                  f"Promise.resolve({expression}).then(done, e => done(String(e)))")
        return self._ask("WebDriver:ExecuteAsyncScript", {"script": script, "args": [], "sandbox": None})["value"]

    def _element(self, selector: str) -> str:
        found = self._ask("WebDriver:FindElement", {"using": "css selector", "value": selector})
        return str(next(iter(found["value"].values())))

    def pick(self, selector: str, *files: Path) -> None:
        """Picks files in a field."""
        self._ask("WebDriver:ElementSendKeys", {"id": self._element(selector), "text": "\n".join(map(str, files))})

    def key(self, name: str, shift: bool = False) -> None:
        codes = {"ArrowLeft": "\ue012", "ArrowUp": "\ue013", "ArrowRight": "\ue014", "ArrowDown": "\ue015",
                 "Home": "\ue011", "Enter": "\ue007"}
        keys = [{"type": kind, "value": codes.get(name, name)} for kind in ("keyDown", "keyUp")]
        if shift:
            keys = [{"type": "keyDown", "value": "\ue008"}, *keys, {"type": "keyUp", "value": "\ue008"}]
        self._ask("WebDriver:PerformActions", {"actions": [{"type": "key", "id": "keys", "actions": keys}]})

    def click(self, x: float, y: float) -> None:
        self.drag([(x, y)])

    @staticmethod
    def _steps(places: Sequence[Point]) -> list[dict[str, Any]]:
        moves = [{"type": "pointerMove", "x": round(x), "y": round(y), "duration": 0} for x, y in places]
        return [moves[0], {"type": "pointerDown", "button": 0}, *moves[1:], {"type": "pointerUp", "button": 0}]

    def drag(self, places: Sequence[Point], shift: bool = False) -> None:
        """Presses the mouse at the first place, moves it over the others, and lets it go at the last."""
        steps = self._steps(places)
        pauses = [{"type": "pause"}] * (len(steps) - 1)
        keys = [{"type": "keyDown", "value": "\ue008"}, *pauses, {"type": "keyUp", "value": "\ue008"}]
        actions: list[dict[str, Any]] = [{"type": "pointer", "id": "mouse", "actions": [*steps, {"type": "pause"}]}]
        if shift:
            actions.append({"type": "key", "id": "keys", "actions": keys})
        self._ask("WebDriver:PerformActions", {"actions": actions})

    def wheel(self, place: Point, down: float) -> None:
        step = {"type": "scroll", "x": round(place[0]), "y": round(place[1]), "deltaX": 0, "deltaY": round(down)}
        self._ask("WebDriver:PerformActions", {"actions": [{"type": "wheel", "id": "wheel", "actions": [step]}]})

    def touch(self, *fingers: Sequence[Point]) -> None:
        """Fingers go down at their first places, move over the others together, and go up."""
        actions = [{"type": "pointer", "id": f"finger{number}", "parameters": {"pointerType": "touch"},
                    "actions": self._steps(places)} for number, places in enumerate(fingers)]
        self._ask("WebDriver:PerformActions", {"actions": actions})

    def drop(self, place: Point, *files: Path) -> None:
        """Drops files on a place of the page. Marionette has no call for it, so the page makes the event."""
        texts = json.dumps([[file.name, base64.b64encode(file.read_bytes()).decode()] for file in files])
        self.value("""(() => {
            const data = new DataTransfer();
            for (const [name, text] of TEXTS)
                data.items.add(new File([Uint8Array.from(atob(text), (it) => it.charCodeAt(0))], name));
            for (const kind of ['dragover', 'drop'])
                document.elementFromPoint(PLACE).dispatchEvent(new DragEvent(kind,
                    { dataTransfer: data, bubbles: true, cancelable: true }));
        })()""".replace("PLACE", f"{place[0]}, {place[1]}").replace("TEXTS", texts))

    def screenshot(self) -> bytes:
        return base64.b64decode(self._ask("WebDriver:TakeScreenshot", {"full": False})["value"])

    def close(self) -> None:
        self._socket.close()
        os.killpg(self._process.pid, signal.SIGKILL)
        self._process.wait()


def is_there(kind: "type[Chromium] | type[Firefox]") -> bool:
    return shutil.which(kind.name) is not None
