# SPDX-License-Identifier: Apache-2.0 OR BSD-3-Clause
"""What tools/generate makes of other files, a module for each step. Tests compare with it what the repository has."""
