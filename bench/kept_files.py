"""The module of ../tools that has this name, for the scripts of this folder: what imports this gets that one."""
import importlib.util
import os
import sys

PATH = os.path.join(os.path.dirname(os.path.dirname(os.path.realpath(__file__))), "tools", "kept_files.py")
spec = importlib.util.spec_from_file_location("kept_files", PATH)
sys.modules["kept_files"] = module = importlib.util.module_from_spec(spec)
spec.loader.exec_module(module)
