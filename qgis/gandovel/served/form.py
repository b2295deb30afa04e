"""What the register's dock looks like."""
from __future__ import annotations

from typing import Any, Dict

from qgis.gui import QgsPasswordLineEdit
from qgis.PyQt.QtWidgets import (
    QFormLayout,
    QHBoxLayout,
    QLabel,
    QLineEdit,
    QListWidget,
    QPushButton,
    QVBoxLayout,
    QWidget,
)

from ..words import tr
from .drafts import KINDS, kind_text

ADDRESS = "http://127.0.0.1:8080"


class RegisterForm(QWidget):
    """The widgets of the dock, each with its name."""

    def __init__(self) -> None:
        super().__init__()
        self.address, self.token, self.why = QLineEdit(), QgsPasswordLineEdit(), QLineEdit()
        self.address.setPlaceholderText(ADDRESS)
        self.token.setToolTip(tr("Kept until QGIS is closed. Without TLS it goes in clear text."))
        self.why.setPlaceholderText(tr("Why: stands in the journal"))
        self.state, self.reason, self.answer, self.note = (QLabel("") for _ in range(4))
        for label in (self.state, self.reason, self.answer, self.note):
            label.setWordWrap(True)
        self.state.setText(tr("Not connected."))
        self.deed = QListWidget()
        self._make_buttons()
        self._lay_out()
        self.connected(False)

    def _make_buttons(self) -> None:
        self.connect_button, self.help_button = _button(tr("Connect")), _button(tr("Help"))
        self.kind_buttons: Dict[str, QPushButton] = {kind: _button(kind_text(kind)) for kind in KINDS}
        for button in self.kind_buttons.values():
            button.setCheckable(True)
        self.undo_button, self.cancel_button = _button(tr("Take back")), _button(tr("Drop"))
        self.add_button, self.remove_button = _button(tr("Add to the list")), _button(tr("Take from the list"))
        self.keep_button, self.post_button = _button(tr("Keep as a draft")), _button(tr("Post"))
        self.keep_button.setToolTip(tr("The register keeps it, and another clerk approves it on the register's page."))

    def _lay_out(self) -> None:
        places, all_of_it = QFormLayout(), QVBoxLayout()
        for text, widget in ((tr("Address"), self.address), (tr("Token"), self.token)):
            places.addRow(text, widget)
        all_of_it.addLayout(places)
        kinds = list(self.kind_buttons.values())
        rows = (
            (self.connect_button, self.help_button),
            (self.state,),
            kinds[:3],
            kinds[3:],
            (self.reason,),
            (self.undo_button, self.cancel_button),
            (self.why,),
            (self.add_button, self.keep_button),
            (self.deed,),
            (self.note,),
            (self.remove_button, self.post_button),
            (self.answer,),
        )
        for widgets in rows:
            row = QHBoxLayout()
            for widget in widgets:
                row.addWidget(widget)
            all_of_it.addLayout(row)
        self.setLayout(all_of_it)

    def connected(self, is_connected: bool) -> None:
        """Shows what can be done with a register, or without one."""
        self.connect_button.setText(tr("Disconnect") if is_connected else tr("Connect"))
        for widget in (self.address, self.token):
            widget.setEnabled(not is_connected)
        for button in self.kind_buttons.values():
            button.setEnabled(is_connected)
            button.setChecked(False)

    def show_kind(self, kind: str) -> None:
        """Marks the kind of edit that is drawn; none where it is empty."""
        for name, button in self.kind_buttons.items():
            button.setChecked(name == kind)

    def may(self, **allowed: bool) -> None:
        """Lets buttons be clicked, by their names, or not."""
        for name, is_allowed in allowed.items():
            button: Any = getattr(self, f"{name}_button")
            button.setEnabled(is_allowed)


def _button(text: str) -> QPushButton:
    button = QPushButton(text)
    button.setAutoDefault(False)
    return button
