"""The report's drawings: shapes from plain whole numbers, which templates/drawing.html turns into SVG."""
