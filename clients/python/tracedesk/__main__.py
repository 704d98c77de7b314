"""tracedesk-send, as `python3 -m tracedesk`."""
import sys

from .send import main

sys.exit(main())
