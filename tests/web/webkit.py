"""webkit.py ADDRESS SECONDS: opens a page in WebKitGTK, and waits until it is ended from outside, or that long."""

import sys
import time

from selenium import webdriver
from selenium.webdriver.webkitgtk.options import Options

options = Options()
options.binary_location = "/usr/lib/x86_64-linux-gnu/webkit2gtk-4.1/MiniBrowser"
options.add_argument("--automation")
driver = webdriver.WebKitGTK(options=options, executable_path="/usr/bin/WebKitWebDriver")
try:
    driver.get(sys.argv[1])
    time.sleep(float(sys.argv[2]))
finally:
    driver.quit()
