# The statement has the customer's question and demands letter by letter, and every quotation of a demand is one.
set -u
python3 -B tests/documents/demands.py
