"""The repository's root."""
import pathlib

ROOT = pathlib.Path(__file__).resolve().parents[3]
