"""What the importers share: refusals, summaries, files that are written whole, classes of travel times, distances on the Earth."""
