// The switch between light and dark colours, or those of the system.

/** Shows and keeps what is chosen in the group of radio buttons `group`. */
export function connectTheme(group) {
  const root = document.documentElement;
  for (const button of group.querySelectorAll('input')) {
    button.checked = button.value === (root.dataset.theme ?? '');
  }
  group.addEventListener('change', ({ target }) => {
    if (target.value) {
      root.dataset.theme = target.value;
      localStorage.setItem('theme', target.value);
    } else {
      delete root.dataset.theme;
      localStorage.removeItem('theme');
    }
  });
}
