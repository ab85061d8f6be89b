"""How a page looks, by a script in it: texts without contrast, what is wider than the screen."""

SIZES = {"wide": (1280, 900), "tablet": (768, 1024), "phone": (390, 844), "narrow": (320, 640)}
CONTRAST = 4.5          # of a text with what is behind it, as WCAG 2.2 wants it (AA)
SCRIPT = """(() => {
  const numbers = (text) => text.match(/[\\d.]+/g).map(Number);
  const linear = (part) => part <= 10.31 ? part / 3294.6 : ((part / 255 + 0.055) / 1.055) ** 2.4;
  const light = ([red, green, blue]) =>
    0.2126 * linear(red) + 0.7152 * linear(green) + 0.0722 * linear(blue);
  const behind = (element) => {
    for (let it = element; it; it = it.parentElement) {
      const color = numbers(getComputedStyle(it).backgroundColor);
      if (color.length < 4 || color[3] > 0) return color;
    }
    return [255, 255, 255];
  };
  const pale = [];
  const texts = document.createTreeWalker(document.body, NodeFilter.SHOW_TEXT);
  while (texts.nextNode()) {
    const text = texts.currentNode, element = text.parentElement;
    if (!text.data.trim() || !element.checkVisibility?.()) continue;
    if (element.closest("script, style, noscript")) continue;
    const own = light(numbers(getComputedStyle(element).color)), other = light(behind(element));
    const contrast = (Math.max(own, other) + 0.05) / (Math.min(own, other) + 0.05);
    if (contrast < CONTRAST) pale.push(`${text.data.trim().slice(0, 40)}: ${contrast.toFixed(2)}`);
  }
  const small = [...document.querySelectorAll("button, summary")].filter((it) =>
    it.checkVisibility() && it.getBoundingClientRect().height < 24).map((it) => it.textContent);
  return { pale, small, width: document.scrollingElement.scrollWidth, screen: innerWidth };
})()"""


def wrong(browser) -> list:
    """What can't be read well: pale texts, small buttons, what is wider than the screen."""
    told = browser.value(SCRIPT.replace("< CONTRAST", f"< {CONTRAST}"))
    wide = [f"{told['width']} pixels wide"] if told["width"] > told["screen"] else []
    return [f"pale: {it}" for it in told["pale"]] + [f"small: {it}" for it in told["small"]] + wide
