"""The tests of the program (`program`), of the commands of gr-desk (`commands`), of the modules behind them
(`modules`), and of the pages (`pages`). What they share is in `support`. `tests/run` runs all of them."""
