"""What all browsers of the tests have in common."""
import json
import time

# Longer than all takes on a busy computer.
SECONDS = 600


class Driven:
    """A browser with one page. Each kind has its own `evaluate`, which returns the value of an expression."""

    def wait_for(self, expression):
        """Waits until an expression holds."""
        text = json.dumps(f"the page never came to: {expression}")
        self.evaluate(
            f"""new Promise((resolve, reject) => {{
              const end = performance.now() + {SECONDS * 900};
              const look = () => {{
                if ({expression}) resolve();
                else if (performance.now() > end) reject(new Error({text} + "; it says " + document.body.innerText));
                else setTimeout(look, 5);
              }};
              look();
            }})"""
        )

    def load_again(self):
        """Loads the page again, as a user does."""
        self.go("location.reload()", "!self.isOld")

    def come_back(self):
        """Goes to another page and back, as a user does. The page is not kept meanwhile."""
        self.go('location.assign("page.css")', 'location.pathname.endsWith(".css")')
        self.go("history.back()", 'location.pathname.endsWith(".html")')

    def go(self, way, arrived):
        """Goes a way to a page, which is there where an expression holds."""
        self.evaluate(f"void (self.isOld = true, setTimeout(() => {way}, 100))")
        end = time.monotonic() + SECONDS
        while time.monotonic() < end:
            try:
                if self.evaluate(f'{arrived} && document.readyState === "complete"'):
                    return
            except RuntimeError:
                # It is between the two.
                pass
            time.sleep(0.05)
        raise RuntimeError(f"nothing came of {way}")
