"""The second reading: an independent model of document 01, rule by rule, in plain Python."""
