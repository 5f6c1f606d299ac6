"""Draws the curves of one layer of a model: each edge's base part, its spline part and their sum.

    plot_layer.py model.kan layer0.png
    plot_layer.py model.kan layer1.png --layer 1
    plot_layer.py model.kan layer0.png --inputs "size,includes,templates"

The picture is a drawing: its curves are worked out here, in float64. What the library computes
decides; the program tells how far the two are apart.
"""

import argparse
import sys
from pathlib import Path

import numpy as np

import estimator

DEGREE = 3
# Colour-blind readers tell orange from blue, and the dashes tell without any colour.
# The sum is broad and lies below: a part that it covers would not be seen.
SUM = {"color": "0.1", "linestyle": "-", "linewidth": 2.4}
BASE = {"color": "#E69F00", "linestyle": (0, (5, 2)), "linewidth": 1.4}
SPLINE = {"color": "#2E9BDC", "linestyle": (0, (1, 1)), "linewidth": 1.8}
KNOT = {"color": "0.8", "linestyle": "-", "linewidth": 0.8, "zorder": 0}


def knots(config):
    """Knot j lies at lo + (j - 3) * w, for j = 0 .. g + 6."""
    step = (config.hi - config.lo) / config.intervals
    return config.lo + (np.arange(config.intervals + 2 * DEGREE + 1) - DEGREE) * step


def basis(config, x):
    """The g + 3 cubic B-splines at each x, by Cox and de Boor: an array [x, k]."""
    at = knots(config)
    x = np.asarray(x, float)[:, None]
    values = ((at[:-1] <= x) & (x < at[1:])).astype(float)
    for degree in range(1, DEGREE + 1):
        span = degree * (at[1] - at[0])
        rising = (x - at[: -degree - 1]) / span * values[:, :-1]
        falling = (at[degree + 1 :] - x) / span * values[:, 1:]
        values = rising + falling
    return values


def parts(model, layer, x):
    """The base parts and the spline parts of a layer's edges: two arrays [output, input, x]."""
    x = np.asarray(x, float)
    base_weights, spline_weights = (weights.astype(float) for weights in model.weights(layer))
    silu = x * (1 + np.tanh(x / 2)) / 2  # x / (1 + exp(-x)), which overflows far below 0
    curves = model.coefficients(layer).astype(float) @ basis(model.config, x).T
    return base_weights[:, :, None] * silu, spline_weights[:, :, None] * curves


def predicted(model, layer, x):
    """The sums as the library computes them, each edge as a network of its own."""
    config = model.config
    outputs, inputs, count = config.shape(layer)
    alone = estimator.Config((1, 1), config.intervals, config.lo, config.hi)
    weights, coefficients = model.weights(layer), model.coefficients(layer)
    sums = np.empty((outputs, inputs, len(x)), np.float32)
    for edge in np.ndindex(outputs, inputs):
        parameters = np.concatenate([[weights[0][edge], weights[1][edge]], coefficients[edge]])
        single = estimator.Model(alone, parameters.astype(np.float32), model.library)
        sums[edge] = single.predict(np.reshape(x, (-1, 1)))[:, 0]
    return sums


def sample(config):
    """Places to draw at, float32 as the library reads them: the domain, its upper end too."""
    return np.linspace(config.lo, config.hi, 40 * min(config.intervals, 50) + 1, dtype=np.float32)


def mark_knots(axes, config):
    """A fine line at each knot of the domain, where two pieces of the spline meet."""
    inside = knots(config)[DEGREE:-DEGREE]
    if len(inside) <= 60:
        for knot in inside:
            axes.axvline(knot, label="knots" if knot == inside[0] else None, **KNOT)
    axes.axhline(0, color="0.6", linewidth=0.7, zorder=0)
    axes.set_xlim(config.lo, config.hi)


def name_panels(panels, names):
    """Inputs above the columns and outputs beside the rows: said once, not in each panel."""
    for column, name in enumerate(names):
        panels[0, column].set_title(name, fontsize=10)
    for row, axes in enumerate(panels[:, -1]):
        beside = {"transform": axes.transAxes, "rotation": 270, "va": "center", "fontsize": 10}
        axes.text(1.03, 0.5, f"to node {row}", **beside)


def set_ticks(panels, config):
    """Few ticks, and none near the domain's ends: their labels would touch the next panel's."""
    from matplotlib.ticker import MaxNLocator

    margin = (config.hi - config.lo) / 8
    ticks = MaxNLocator(4).tick_values(config.lo, config.hi)
    inner = [tick for tick in ticks if config.lo + margin <= tick <= config.hi - margin]
    for axes in panels.flat:
        axes.set_xticks(inner)
        axes.yaxis.set_major_locator(MaxNLocator(4, prune="both"))
        axes.tick_params(labelsize=9)


def frame(figure, panels, title):
    """Title, legend and the meaning of the axes, in room that is measured in inches."""
    width, height = figure.get_size_inches()
    left, right, bottom, top = 0.95 / width, 1 - 0.35 / width, 0.58 / height, 1 - 0.9 / height
    figure.subplots_adjust(left, bottom, right, top, wspace=0.06, hspace=0.12)
    figure.text(left, 1 - 0.1 / height, title, va="top", fontsize=11, fontweight="bold")
    handles, labels = panels[0, 0].get_legend_handles_labels()
    corner = {"loc": "upper left", "bbox_to_anchor": (left, 1 - 0.32 / height), "borderaxespad": 0}
    spacing = {"columnspacing": 1.6, "borderpad": 0, "handlelength": 2.4}
    figure.legend(handles, labels, ncol=4, frameon=False, fontsize=10, **corner, **spacing)
    figure.text((left + right) / 2, 0.1 / height, "what the edge reads", ha="center", fontsize=10)
    middle = {"rotation": 90, "ha": "left", "va": "center", "fontsize": 10}
    figure.text(0.08 / width, (bottom + top) / 2, "what the edge adds", **middle)


def draw(model, layer, names, title):
    """The figure. Matplotlib is needed from here on only."""
    import matplotlib

    matplotlib.use("Agg")  # to a file, without a screen
    from matplotlib import pyplot

    outputs, inputs, _ = model.config.shape(layer)
    x = sample(model.config)
    base, spline = parts(model, layer, x)
    size = (1.3 + max(2.1 * inputs, 4.6), 1.48 + 1.25 * outputs)
    figure, panels = pyplot.subplots(
        outputs, inputs, figsize=size, sharex=True, sharey=True, squeeze=False
    )
    for edge, axes in np.ndenumerate(panels):
        axes.plot(x, (base + spline)[edge], label="sum", **SUM)
        axes.plot(x, base[edge], label="base part", **BASE)
        axes.plot(x, spline[edge], label="spline part", **SPLINE)
        mark_knots(axes, model.config)
    name_panels(panels, names)
    set_ticks(panels, model.config)
    frame(figure, panels, title)
    return figure


def parse():
    parser = argparse.ArgumentParser(description="Draws the curves of one layer of a model image.")
    parser.add_argument("model", type=Path, help="the image to read")
    parser.add_argument("picture", type=Path, help="the PNG to write")
    parser.add_argument("--layer", type=int, default=0, help="counted from 0 (default: 0)")
    parser.add_argument("--inputs", help="names of what the layer reads, with commas between them")
    parser.add_argument("--dpi", type=int, default=100, help="dots to an inch (default: 100)")
    return parser.parse_args()


def main():
    arguments = parse()
    model = estimator.Model.from_image(arguments.model.read_bytes())
    outputs, inputs, _ = model.coefficients(arguments.layer).shape
    if inputs * outputs > 400:
        sys.exit(f"plot_layer: {inputs * outputs} edges are too many for one picture")
    names = [f"from node {i}" for i in range(inputs)]
    if arguments.inputs:
        names = arguments.inputs.split(",")
    if len(names) != inputs:
        sys.exit(f"plot_layer: {len(names)} names for {inputs} inputs")
    title = f"{arguments.model.name}, layer {arguments.layer}"
    figure = draw(model, arguments.layer, names, title)
    figure.savefig(arguments.picture, dpi=arguments.dpi, pil_kwargs={"optimize": True})
    x = sample(model.config)
    base, spline = parts(model, arguments.layer, x)
    apart = np.abs(base + spline - predicted(model, arguments.layer, x)).max()
    print(
        f"{arguments.picture}: {inputs * outputs} edges,"
        f" at most {apart:.1e} from what the library computes"
    )


if __name__ == "__main__":
    try:
        main()
    except (estimator.Refused, OSError) as error:
        sys.exit(f"plot_layer: {error}")
