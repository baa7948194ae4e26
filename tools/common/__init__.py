# SPDX-License-Identifier: Apache-2.0 OR BSD-3-Clause
"""What several tools need: of each other, of a machine, and of the repository. Tests take it from here too."""
