#!/usr/bin/env python3
"""Writes a web page that shows a script over a module, step by step, like `mlir-work page`.

usage: tools/page.py MODULE [SCRIPT] [-o FILE] [--most N]     (without SCRIPT, the script is in MODULE, after a line
`// -----`; without FILE, the page is replay.html)"""
import launch

launch.start("page")
