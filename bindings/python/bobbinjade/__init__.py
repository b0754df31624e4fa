"""Authorization according to policies of the Cedar language, over the proved engine libcedar.

    engine = Engine(schema, policies, entities)
    if engine.authorize('User::"ann"', 'Action::"write"', 'Notebook::"plans"'):
        ..

An Engine is for any number of threads. `Engine.publish` swaps the files while requests run,
`Engine.publish_entities` the entities alone, and `Engine.publish_changes` changes some of them."""
from .engine import Engine, Erring, Report, Response, explain, validate, version
from .errors import Closed, Error, Faults, OutOfMemory, Refused, RequestRefused
from .parts import ReportParts, validate_parts

__all__ = ['Closed', 'Engine', 'Erring', 'Error', 'Faults', 'OutOfMemory', 'Refused', 'Report', 'ReportParts', 'RequestRefused', 'Response',
           'explain', 'validate', 'validate_parts', 'version']
