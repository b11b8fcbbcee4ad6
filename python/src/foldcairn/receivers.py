"""The public path of `foldcairn.model.receivers`, which says what each of these is. Tested, not proved."""

from __future__ import annotations

from .model.receivers import ALL, HOSTS, Meant, NO_HOST, OTHERS, Receivers, meant

__all__ = ["ALL", "HOSTS", "Meant", "NO_HOST", "OTHERS", "Receivers", "meant"]
