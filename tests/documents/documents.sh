# The documents that are signed cite only what is there, and list every public function and every wrong program.
set -u
PYTHONPATH=tools:tests/proofs python3 -B tests/documents/documents.py
