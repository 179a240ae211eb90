"""flexray: the clocks of a FlexRay cluster, simulated by a program whose every function is proved.

    from pathlib import Path
    import flexray

    report = flexray.run(Path("params.csv"), Path("drift.csv"), Path("script.csv"))
    print(report.text, end="")                                # as `flexray run` prints it
    print(flexray.to_us(report.precision, 25), "us")          # where a microtick lasts 25 ns

The requests are the functions of `flexray.calls`, each a name of this package too. What they answer is in `flexray.results`,
what they raise in `flexray.errors`, and `request` has the program's own words. Times are in ticks, a millionth of a nominal
microtick.

The answers are computed by `libflexray.so.0`, whose functions are proved to answer what the program does; this module only
hands bytes over and takes texts apart, and is tested. docs/PYTHON.md has more.
"""
from . import calls, results
from .calls import *  # noqa: F401,F403
from .errors import FlexrayError, LibraryMissing, NoFrame, NoMemory, ReadFault, Refused, TooLong, Usage
from .library import Answer, request, series_request, version
from .results import *  # noqa: F401,F403
from .units import from_microticks, from_ns, from_us, length_of, ppm_of, to_microticks, to_ns, to_us

__all__ = ["Answer", "FlexrayError", "LibraryMissing", "NoFrame", "NoMemory", "ReadFault", "Refused", "TooLong", "Usage",
           "from_microticks", "from_ns", "from_us", "length_of", "ppm_of", "request", "series_request", "to_microticks", "to_ns",
           "to_us", "version"]
__all__ += calls.__all__
__all__ += results.__all__
