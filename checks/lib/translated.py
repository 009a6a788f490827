"""The program and the libraries that native/translate builds. The checks share one build, in native/out."""
import os
import shutil
import subprocess

from shared import TOP, fail, say

FOLDER = os.path.join(TOP, "native", "out")
PROGRAM = os.path.join(FOLDER, "mencius")
LIBRARY = os.path.join(FOLDER, "libmencius.so")


def missing_tools():
    return [tool for tool in ("wasm2c", "cc") if not shutil.which(tool)]


def build():
    """Builds the files if they are older than the module. Returns whether they exist, and reports what is skipped."""
    if missing_tools():
        say(f"SKIPPED: what native/translate builds, because these tools are missing: {', '.join(missing_tools())} "
            "(apt-get install wabt gcc libc6-dev)")
        return False
    if subprocess.run([os.path.join(TOP, "mencius"), "--is-current", "native/out"], check=False).returncode != 0:
        done = subprocess.run([os.path.join(TOP, "native", "translate")], capture_output=True, text=True, check=False)
        if done.returncode != 0:
            fail(f"native/translate ends with status {done.returncode}\n{done.stdout}{done.stderr}")
    return True
