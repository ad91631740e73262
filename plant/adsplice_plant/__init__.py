"""What stands beside adsplice in a plant: a feed, a maker of pods, an explainer of empty breaks, and a monitor."""
