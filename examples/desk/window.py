#!/usr/bin/env python3
"""Writes the window of a manifest as the JSON that the desk takes.

Usage: python3 window.py MANIFEST

The files of the manifest are read from the current folder, as `vaultdesk load` reads them. They have to be UTF-8.
"""
import json
import pathlib
import sys
import tomllib


def text_of(name):
    return pathlib.Path(name).read_bytes().decode("utf-8")


def main():
    manifest = tomllib.loads(text_of(sys.argv[1]))
    extracts = [{"feed": each["feed"], "text": text_of(each["file"])} for each in manifest["extract"]]
    json.dump({"load": manifest["load"], "extracts": extracts}, sys.stdout)


main()
