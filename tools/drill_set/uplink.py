"""The model of the uplink in tools/captures, whose name no import statement can say."""
from importlib.machinery import SourceFileLoader
from importlib.util import module_from_spec, spec_from_loader
from pathlib import Path

_path = Path(__file__).resolve().parent.parent / "captures"
_spec = spec_from_loader("captures", SourceFileLoader("captures", str(_path)))
_captures = module_from_spec(_spec)
_spec.loader.exec_module(_captures)

UNSEEN, WORDS = _captures.UNSEEN, _captures.WORDS
bits_of, crc8, payload = _captures.bits_of, _captures.crc8, _captures.payload
whitening, whitened, coded, places = _captures.whitening, _captures.whitened, _captures.coded, _captures.places
field, capture, ok, refused = _captures.field, _captures.capture, _captures.ok, _captures.refused
