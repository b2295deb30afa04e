"""A model of QGIS that runs each algorithm of the plugin, one behind the other, for `qgis_process`."""
from __future__ import annotations

from pathlib import Path
from typing import Any, Dict, List

FAULTY, WHOLE = "parcels", "whole"
"""The model's parameters: parcels that may have faults, and parcels that tile their city."""
OUTPUTS: Dict[str, List[str]] = {
    "checkparcels": ["FAULTS"],
    "districts": ["FAULTS"],
    "overlayzones": ["SPLIT", "PARTS", "TABLE", "PAIRS", "FAULTS"],
    "prepare": ["OUTPUT", "CHANGES"],
    "locatepoints": ["OUTPUT"],
    "applyedits": ["OUTPUT", "ANSWERS"],
    "comparesession": ["OUTPUT"],
}
"""The layers of each algorithm; the model's output is ALGORITHM_LAYER."""
COUNTED = ("GAP_COUNT", "OVERLAP_COUNT", "OPEN_GAP_COUNT", "SLIVER_COUNT", "SKIPPED_COUNT", "VERDICT")
ON_FAULTY = ("checkparcels", "districts", "overlayzones", "prepare")


def write_model(path: Path, algorithms: List[str]) -> None:
    """Writes a model of these algorithms with the parameters `PARAMETERS`; its outputs are layers to name."""
    from qgis.core import QgsProcessingModelAlgorithm, QgsProcessingModelChildAlgorithm

    model = QgsProcessingModelAlgorithm("all of them", "tests", "tests")
    for definition in _parameters():
        _add_parameter(model, definition)
    before: List[str] = []
    for name in algorithms:
        child = QgsProcessingModelChildAlgorithm(f"gandovel:{name}")
        child.setChildId(name)
        child.setDescription(name)
        child.setDependencies([_dependency(one) for one in before])
        for parameter, source in _sources(name).items():
            child.addParameterSources(parameter, [source])
        child.setModelOutputs({f"{name}_{output}": _output(name, output) for output in OUTPUTS[name]})
        model.addChildAlgorithm(child)
        before = [name]
    model.addChildAlgorithm(_counting())
    assert model.toFile(str(path))


def _parameters() -> List[Any]:
    from qgis.core import (
        QgsProcessing,
        QgsProcessingParameterEnum,
        QgsProcessingParameterFeatureSource,
        QgsProcessingParameterFile,
        QgsProcessingParameterNumber,
        QgsProcessingParameterString,
    )

    layers = [
        QgsProcessingParameterFeatureSource(name, name, [QgsProcessing.TypeVectorAnyGeometry], optional=name == "city")
        for name in (FAULTY, WHOLE, "zones", "points", "city")
    ]
    texts = [QgsProcessingParameterString(name, name, "", optional=True) for name in ("number", "zone", "desk")]
    units = QgsProcessingParameterEnum("unit", "unit", ["mm", "cm", "m"], optional=True, usesStaticStrings=True)
    touch = QgsProcessingParameterNumber("touch", "touch", QgsProcessingParameterNumber.Double, None, optional=True)
    return [*layers, *texts, QgsProcessingParameterFile("edits", "edits"), units, touch]


def _add_parameter(model: Any, definition: Any) -> None:
    from qgis.core import QgsProcessingModelParameter

    component = QgsProcessingModelParameter(definition.name())
    component.setParameterName(definition.name())
    model.addModelParameter(definition, component)


def _sources(name: str) -> Dict[str, Any]:
    from qgis.core import QgsProcessingModelChildParameterSource

    given = {
        "INPUT": FAULTY if name in ON_FAULTY else WHOLE,
        "NUMBER_FIELD": "number",
        "CITY": "city",
        "UNIT": "unit",
        "TOUCH": "touch",
    }
    given.update({"overlayzones": {"OVERLAY": "zones", "OVERLAY_FIELD": "zone"}}.get(name, {}))
    given.update({"locatepoints": {"POINTS": "points"}, "applyedits": {"EDITS": "edits"}}.get(name, {}))
    given.update({"comparesession": {"DESK": "desk"}}.get(name, {}))
    return {key: QgsProcessingModelChildParameterSource.fromModelParameter(value) for key, value in given.items()}


def _counting() -> Any:
    """Puts the counts of the check, and its verdict, into a column of its faults, as models use them."""
    from qgis.core import QgsProcessingModelChildAlgorithm, QgsProcessingModelChildParameterSource

    child = QgsProcessingModelChildAlgorithm("native:fieldcalculator")
    child.setChildId("counted")
    faults = QgsProcessingModelChildParameterSource.fromChildOutput("checkparcels", "FAULTS")
    child.addParameterSources("INPUT", [faults])
    formula = "||' '||".join(f"to_string(@checkparcels_{name})" for name in COUNTED)
    for name, value in (("FIELD_NAME", "counts"), ("FIELD_TYPE", 2), ("FIELD_LENGTH", 200), ("FORMULA", formula)):
        child.addParameterSources(name, [QgsProcessingModelChildParameterSource.fromStaticValue(value)])
    child.setModelOutputs({"counted_OUTPUT": _output("counted", "OUTPUT")})
    return child


def _dependency(name: str) -> Any:
    from qgis.core import QgsProcessingModelChildDependency

    return QgsProcessingModelChildDependency(name)


def _output(name: str, output: str) -> Any:
    from qgis.core import QgsProcessingModelOutput

    made = QgsProcessingModelOutput(f"{name}_{output}")
    made.setChildId(name)
    made.setChildOutputName(output)
    return made
