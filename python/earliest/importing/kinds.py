"""The column `kind` of a transit network's NAME.arcs.csv."""
RIDE, WALK, CHANGE, BOARD, LEAVE, STREET = "ride", "walk", "change", "board", "leave", "street"
