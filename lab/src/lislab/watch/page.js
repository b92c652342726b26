'use strict';
(function () {
  var busy = false;
  function renew() {
    if (busy || document.hidden) return;
    busy = true;
    fetch(location.href, {cache: 'no-store', credentials: 'same-origin'}).then(function (answer) {
      if (!answer.ok) throw new Error(String(answer.status));
      return answer.text();
    }).then(function (text) {
      var page = new DOMParser().parseFromString(text, 'text/html');
      document.querySelectorAll('[data-live]').forEach(function (one) {
        var now = page.querySelector('[data-live="' + one.dataset.live + '"]');
        if (now && now.innerHTML !== one.innerHTML && !one.contains(document.activeElement)) one.replaceWith(now);
      });
      document.documentElement.dataset.renewed = String(Number(document.documentElement.dataset.renewed || 0) + 1);
    }).catch(function (error) {
      document.documentElement.dataset.failed = String(error);
    }).then(function () { busy = false; });
  }
  setInterval(renew, 2000);
}());
