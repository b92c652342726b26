'use strict';
(function () {
  var rows = Array.prototype.slice.call(document.querySelectorAll('#ladder tbody tr'));
  var find = document.getElementById('find'), wrong = document.getElementById('wrong'), shown = document.getElementById('shown');
  function filter() {
    var text = find.value.toLowerCase(), count = 0;
    rows.forEach(function (row) {
      var fits = (!wrong.checked || row.dataset.level === 'bad' || row.dataset.level === 'warn') &&
        (!text || row.textContent.toLowerCase().indexOf(text) >= 0);
      row.hidden = !fits;
      if (fits) count += 1;
    });
    shown.textContent = count + ' of ' + rows.length + ' rows';
  }
  function fold(open) {
    Array.prototype.forEach.call(document.querySelectorAll('main details'), function (one) { one.open = open; });
  }
  find.addEventListener('input', filter);
  wrong.addEventListener('change', filter);
  document.getElementById('open').addEventListener('click', function () { fold(true); });
  document.getElementById('close').addEventListener('click', function () { fold(false); });
  document.getElementById('print').addEventListener('click', function () { window.print(); });
  if (location.hash.indexOf('#find=') === 0) find.value = decodeURIComponent(location.hash.slice(6));
  if (location.hash === '#wrong') wrong.checked = true;
  filter();
  document.documentElement.dataset.ready = String(rows.length);
}());
