'use strict';
// Scripts run here, so that the tables are shown in place of the text. This stands before all that is shown.
document.documentElement.classList.add('scripted');
