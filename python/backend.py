"""Builds the package for pip. It needs the standard library alone, so that `pip install ./python` works offline."""
import base64
import hashlib
import pathlib
import tomllib
import zipfile


def build_wheel(folder, config_settings=None, metadata_directory=None):
    """Writes the wheel into a folder, and gives its name."""
    project = tomllib.loads(pathlib.Path("pyproject.toml").read_text())["project"]
    name = f"{project['name'].replace('-', '_')}-{project['version']}"
    files = {path.as_posix(): path.read_bytes() for path in sorted(pathlib.Path("smoke").rglob("*"))
             if path.is_file() and "__pycache__" not in path.parts}
    scripts = "".join(f"{script} = {place}\n" for script, place in project["scripts"].items())
    about = {
        "METADATA": f"Metadata-Version: 2.1\nName: {project['name']}\nVersion: {project['version']}\nSummary: {project['description']}\n"
                    f"Requires-Python: {project['requires-python']}\n",
        "WHEEL": "Wheel-Version: 1.0\nGenerator: backend\nRoot-Is-Purelib: true\nTag: py3-none-any\n",
        "entry_points.txt": f"[console_scripts]\n{scripts}",
    }
    files |= {f"{name}.dist-info/{file}": text.encode() for file, text in about.items()}
    sums = {file: base64.urlsafe_b64encode(hashlib.sha256(data).digest()).decode().rstrip("=") for file, data in files.items()}
    record = f"{name}.dist-info/RECORD"
    files[record] = "".join(f"{file},sha256={total},{len(files[file])}\n" for file, total in sums.items()).encode() + f"{record},,\n".encode()
    with zipfile.ZipFile(pathlib.Path(folder) / f"{name}-py3-none-any.whl", "w", zipfile.ZIP_DEFLATED) as wheel:
        for file, data in files.items():
            wheel.writestr(file, data)
    return f"{name}-py3-none-any.whl"
