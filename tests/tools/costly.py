"""Texts whose reading could take quadratic time, or many searches for a similar name."""

import resource
import subprocess
import tempfile
from collections.abc import Iterator
from pathlib import Path

TOOLS = Path(__file__).resolve().parents[2] / "tools"


def of_costly_texts() -> Iterator[tuple[str, str | None]]:
    """Reading texts that could take quadratic time, or many searches for a similar name, ends soon."""
    names = "".join(f'{{name = "{"x" * 24}{number}", unit = ""}},' for number in range(8))
    objects = "".join(
        f'[[object]]\nname = "{"x" * 24}{number:03}"\nkind = "data"\nslots = [{names}]\n' for number in range(500)
    )
    model = f'format = 1\n[run]\nstart = "2020-01-01T00:00"\nstep = "1h"\nsteps = 2\n{objects}'
    unknown = "".join(f"{'x' * 24}y{number:04},1,1\n" for number in range(2000))
    texts = {
        "inputs blanks": f"step,A{' ' * 5000}(\n1,2\n",
        "inputs brackets": f"step,A({' ' * 5000}x\n1,2\n",
        "inputs digits": f"step;A.B\n1;{'1' * 100_000}x\n",
        "inputs timesteps": "step,A.B\n1-999999999999999999,1\n",
        "inputs midnights": f"date,A.B\n2020-01-01{' 24:00' * 1500},1\n",
        "inputs the last midnight": "date,A.B\n9999-12-31 24:00,1\n",
        "doctor names": f"slot,step,value\n{unknown}",
    }
    with tempfile.TemporaryDirectory() as folder:
        (Path(folder) / "model.toml").write_text(model)
        for name, text in texts.items():
            (Path(folder) / "text.csv").write_text(text)
            tool, _, _ = name.partition(" ")
            words = ["model.toml", "text.csv"] if tool == "doctor" else ["text.csv"]
            status = ended_in_time([str(TOOLS / tool), *words], folder)
            yield f"costly: {name}", None if status == {"doctor": 1, "inputs": 2}[tool] else f"status {status}"


def ended_in_time(words: list[str], folder: str) -> int:
    """Returns the status of a call that has 30 seconds of processor time."""

    def limit() -> None:
        resource.setrlimit(resource.RLIMIT_CPU, (30, 30))

    return subprocess.run(words, cwd=folder, capture_output=True, preexec_fn=limit, check=False).returncode
