"""Edits the coefficients of one layer in NumPy, and writes the model's new image.

    edit_layer.py model.kan edited.kan --smooth 2                 all edges of layer 0
    edit_layer.py model.kan edited.kan --zero --edge 3 1          the edge from input 1 to output 3
    edit_layer.py model.kan edited.kan --layer 1 --clamp -1 1
"""

import argparse
import os
import sys
from pathlib import Path

import numpy as np

import estimator


def smoothed(curves, times):
    """Each coefficient averaged with its neighbours, weights 1 2 1; the two at the ends stay."""
    for _ in range(times):
        inner = (curves[..., :-2] + 2 * curves[..., 1:-1] + curves[..., 2:]) / 4
        curves = np.concatenate([curves[..., :1], inner, curves[..., -1:]], axis=-1)
    return curves


def edited(coefficients, arguments):
    """The layer's coefficients after the edit that was asked for: [output, input, k]."""
    where = tuple(arguments.edge) if arguments.edge else ...
    result = coefficients.copy()
    if arguments.zero:
        result[where] = 0
    elif arguments.clamp:
        result[where] = np.clip(result[where], *arguments.clamp)
    else:
        result[where] = smoothed(result[where], arguments.smooth)
    return result


def write_whole(path, content):
    """Replaces a file in one go: who reads it finds the old bytes or the new ones, never a part."""
    part = path.with_name(f".{path.name}.{os.getpid()}")
    try:
        part.write_bytes(content)
        part.replace(path)
    finally:
        part.unlink(missing_ok=True)


def parse():
    parser = argparse.ArgumentParser(
        description="Edits the coefficients of one layer of a model image."
    )
    parser.add_argument("model", type=Path, help="the image to read")
    parser.add_argument("edited", type=Path, help="the image to write")
    parser.add_argument("--layer", type=int, default=0, help="counted from 0 (default: 0)")
    parser.add_argument(
        "--edge", type=int, nargs=2, metavar=("OUTPUT", "INPUT"), help="this edge alone"
    )
    edits = parser.add_mutually_exclusive_group(required=True)
    edits.add_argument(
        "--zero", action="store_true", help="set coefficients to 0: the base part remains"
    )
    edits.add_argument(
        "--clamp", type=np.float32, nargs=2, metavar=("LOW", "HIGH"), help="limit coefficients"
    )
    edits.add_argument(
        "--smooth", type=int, metavar="TIMES", help="average neighbouring coefficients"
    )
    arguments = parser.parse_args()
    if arguments.clamp and not arguments.clamp[0] <= arguments.clamp[1]:
        parser.error("--clamp: LOW is not at most HIGH")
    return arguments


def main():
    arguments = parse()
    model = estimator.Model.from_image(arguments.model.read_bytes())
    before = model.coefficients(arguments.layer)
    if arguments.edge and not all(0 <= n < size for n, size in zip(arguments.edge, before.shape)):
        sys.exit(f"edit_layer: no such edge, there are {before.shape[0]} x {before.shape[1]}")
    after = edited(before, arguments)
    model.set_coefficients(arguments.layer, after)
    write_whole(arguments.edited, model.image())
    changed = np.count_nonzero(before != after)
    print(f"layer {arguments.layer}: {changed} of {after.size} coefficients changed")


if __name__ == "__main__":
    try:
        main()
    except (estimator.Refused, OSError) as error:
        sys.exit(f"edit_layer: {error}")
