"""The parts of tools/night.py: what a replay's lines say (verdict), the results on the disk (store), sessions and the
programs (runner), the reports (report), and the page with its pictures (page, plots)."""
