"""What the tests use of the trace tool, whose code stands under tools/tracing."""
import pathlib
import sys

sys.path.insert(0, str(pathlib.Path(__file__).resolve().parent.parent / "tools"))
from tracing.assemble import decoded, trace_of  # noqa: E402, F401
from tracing.layout import BYTE_KIND, CONTACT_KIND, LIFT_KIND, QUIET_KIND, RECORD_KIND, SECOND_KIND, SETUP_KIND  # noqa: E402, F401
from tracing.layout import joined, on_line, setup_bytes, spelled, split, spoiled  # noqa: E402, F401
from tracing.show import text_of  # noqa: E402, F401
from tracing.values import Mistake  # noqa: E402, F401
