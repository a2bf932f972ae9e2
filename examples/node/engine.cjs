// The script that pages with the solver run. A release has that script in the place of this file.
module.exports = require("../../tools/web/page/engine.js");
