permit (principal, action, resource) when { {if: true}.if };
