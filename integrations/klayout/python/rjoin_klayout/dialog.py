"""The dialog of the macro, and what it does with the open layout."""
from __future__ import annotations

from typing import Sequence

import pya

from .conditions import RELATIONS
from .join import Request, join_layers
from .layers import CELL, ENVELOPE, ERROR, FLAT, SKIP, JoinError, Reading, layer_names
from .program import ProgramError, staleness

TITLE = "Join layers by relation"
CHOICES = {
    "Stop with an error": ERROR,
    "Take their bounding boxes": ENVELOPE,
    "Leave them out and list them": SKIP,
}


MODES = {
    "All below the cell, through its instances": FLAT,
    "Those of each cell by themselves": CELL,
}


class JoinDialog(pya.QDialog):
    """Asks for two layers, a relation, a spacing or an enclosure, and how their shapes are read."""

    def __init__(self, parent: pya.QWidget, layers: Sequence[str]) -> None:
        super().__init__(parent)
        self.windowTitle = TITLE
        self.form = pya.QFormLayout(self)
        self.left = self._choice("Left layer", layers)
        self.right = self._choice("Right layer", layers)
        self.right.currentIndex = min(1, len(layers) - 1)
        self.relation = self._choice("Relation, or a mask of nine letters", RELATIONS)
        self.relation.editable = True
        self.space = pya.QLineEdit(self)
        self.space.toolTip = "Shapes that share no point and are closer than that"
        self.form.addRow("Or a spacing in micrometres", self.space)
        self.enclosing = pya.QLineEdit(self)
        self.enclosing.toolTip = "Right shapes that lie in a left one, closer to its outline"
        self.form.addRow("Or an enclosure in micrometres", self.enclosing)
        self.mode = self._choice("Shapes", list(MODES))
        self.others = self._choice("Shapes that rjoin doesn't read", list(CHOICES))
        self.merged = pya.QCheckBox("Merge the shapes of each layer first", self)
        self.merged.checked = True
        self.merged.toolTip = "Else each shape counts as it is drawn: of metal that is cut up, " \
            "each piece by itself"
        self.form.addRow(self.merged)
        self.matrices = pya.QCheckBox("Sort the pairs of a relation by their matrices", self)
        self.matrices.checked = True
        self.matrices.toolTip = "Without it, a join of other shapes than boxes takes less time"
        self.form.addRow(self.matrices)
        self.layer = pya.QLineEdit(self)
        self.layer.toolTip = "Such as 100/0: the narrow places of a distance, or the left shapes"
        self.form.addRow("Also as shapes in the layer", self.layer)
        self.buttons = pya.QDialogButtonBox(self)
        self.buttons.standardButtons = pya.QDialogButtonBox.Ok | pya.QDialogButtonBox.Cancel
        self.buttons.accepted(self.accept)
        self.buttons.rejected(self.reject)
        self.form.addRow(self.buttons)

    def request(self) -> Request:
        """The request of the user; a spacing or an enclosure goes before the relation."""
        space, enclosing = self.space.text.strip(), self.enclosing.text.strip()
        return Request(self.left.currentText, self.right.currentText,
                       "" if space or enclosing else self.relation.currentText, space,
                       Reading(CHOICES[self.others.currentText], self.merged.checked,
                               MODES[self.mode.currentText]), self.matrices.checked,
                       self.layer.text.strip(), enclosing)

    def _choice(self, label: str, texts: Sequence[str]) -> pya.QComboBox:
        box = pya.QComboBox(self)
        for text in texts:
            box.addItem(text)
        self.form.addRow(label, box)
        return box


def run() -> None:
    """Asks, joins the layers of the current cell, and opens the marker browser."""
    view = pya.LayoutView.current()
    if view is None or not view.active_cellview().is_valid():
        pya.MessageBox.warning(TITLE, "Open a layout first", pya.MessageBox.Ok)
        return
    dialog = JoinDialog(pya.MainWindow.instance(), layer_names(view.active_cellview().layout()))
    if dialog.exec_() == 0:
        return
    try:
        stale = staleness()
        if stale:
            pya.MessageBox.warning(TITLE, stale, pya.MessageBox.Ok)
        show(view, dialog.request())
    except (JoinError, ProgramError) as fault:
        pya.MessageBox.critical(TITLE, str(fault), pya.MessageBox.Ok)


def show(view: pya.LayoutView, request: Request) -> int:
    """Joins, puts the pairs into the view and opens the marker browser; answers their number."""
    cellview = view.active_cellview()
    database = join_layers(cellview.layout(), cellview.cell, request).database()
    if request.layer:
        view.add_missing_layers()
    index = view.add_rdb(database)
    view.show_rdb(index, view.active_cellview_index())
    return int(database.num_items())
