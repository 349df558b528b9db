"""Chromium's own frames: recorded, made into message files, replayed and judged (docs/CHROMIUM.md)."""
