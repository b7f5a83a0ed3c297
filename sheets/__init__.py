"""Stack sheets and answer sheets: their bytes, refusals and limits, as document 01 and CR have them."""
