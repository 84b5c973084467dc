"""Zipline's module of this name: its engines, in whose place there are data.

>>> SimplePipelineEngine(None, None)
Traceback (most recent call last):
tohmeril.pipeline.term.Inexpressible: there is no SimplePipelineEngine here: write data = tohmeril.Data(folder), and
then data.run_pipeline(pipeline, start_date, end_date) or run_chunked_pipeline
"""

from .term import Elsewhere

PipelineEngine, SimplePipelineEngine, ExplodingPipelineEngine = Elsewhere.each(
    "PipelineEngine SimplePipelineEngine ExplodingPipelineEngine",
    "write data = tohmeril.Data(folder), and then data.run_pipeline(pipeline, start_date, end_date) or "
    "run_chunked_pipeline",
)
