"""Pictures of the dialogs in QGIS's window: `qgis --code dialogs.py`, which .ci/check_qgis starts on a virtual screen.

PICTURES names a folder for them, SAMPLE a packed file. Each dialog is opened, and las2las, changes in an order and a
refused file are run. The file `done` in the folder says that all pictures were taken and all outputs are there.
"""
import os
import sys
import traceback

import processing
from qgis.PyQt.QtCore import QCoreApplication, QEventLoop, QTimer
from qgis.PyQt.QtWidgets import QApplication

FOLDER, SAMPLE = os.environ["PICTURES"], os.environ["SAMPLE"]
NAMES = ("laszip", "las2las", "lasinfo", "lassplit", "lasmerge", "describe", "las-batch")


def pause(milliseconds):
    loop = QEventLoop()
    QTimer.singleShot(milliseconds, loop.quit)
    loop.exec_()


def opened(name, parameters):
    dialog = processing.createAlgorithmDialog(f"balsamvise:{name}", parameters)
    dialog.resize(900, 640)
    dialog.show()
    pause(500)
    return dialog


def picture(dialog, name):
    pause(300)
    if not dialog.grab().save(os.path.join(FOLDER, f"{name}.png")):
        raise RuntimeError(f"no picture of {name}")


def run(dialog, name):
    """Presses the button, waits until the run has ended, and takes a picture of the log."""
    dialog.runButton().click()
    for _ in range(100):
        pause(200)
        if dialog.runButton().isEnabled() and dialog.tabWidget().currentIndex() == 1:
            break
    pause(500)
    picture(dialog, name)


def main():
    sample = {"INPUT": SAMPLE}
    for name in NAMES:
        dialog = opened(name, sample if name in ("laszip", "las2las", "lasinfo", "lassplit") else {})
        picture(dialog, name)
        dialog.close()
    dialog = opened("las2las", {**sample, "KEEP_CLASS": [2], "THIN_RAW": 200, "LOWEST": True, "TALLY": ["class"],
                                "OUTPUT": os.path.join(FOLDER, "ground.laz")})
    picture(dialog, "las2las_filled")
    run(dialog, "las2las_run")
    dialog.close()
    dialog = opened("laszip", {"INPUT": os.path.join(FOLDER, "cut off.las"), "OUTPUT": os.path.join(FOLDER, "cut.laz")})
    run(dialog, "laszip_refused")
    dialog.close()
    # raw X, 40999 at most, leaves 32 bits if it is moved up first
    ordered = {"TRANSLATE_RAW_XYZ": f"{2**31 - 40999} 0 0", "TRANSLATE_RAW_X": -1,
               "ORDER": ["translate_raw_x", "translate_raw_xyz"]}
    dialog = opened("las2las", {**sample, **ordered, "OUTPUT": os.path.join(FOLDER, "ordered.laz")})
    run(dialog, "las2las_ordered")
    dialog.close()
    for name in ("ground.laz", "ordered.laz"):
        if not os.path.exists(os.path.join(FOLDER, name)):
            raise RuntimeError(f"the run in the window wrote no {name}")


def start():
    try:
        main()
        open(os.path.join(FOLDER, "done"), "w").close()
    except Exception:
        traceback.print_exc()
        sys.stderr.flush()
    finally:
        QApplication.closeAllWindows()
        QTimer.singleShot(500, QCoreApplication.quit)
        QTimer.singleShot(3000, lambda: os._exit(0))  # whatever asks whether it may be closed


QTimer.singleShot(3000, start)
